import a, b
type
  T = ref object of P
    x*, y: int
  K = enum p, q
  D = distinct array[2, seq[T]]
let z {.cursor.}: tuple[a: int] = (a: 1)
proc `$`*[U](v: var U; w: sink U): U {.inline.} = discard @[v.x, -w[0]]
try: raise newException(O, "m")
except O as e: echo 'c', nil
finally:
  for i in 0..<n: continue
while not c: break
case x
of 1, 2..3: y += [1]
else: return
if a:
  defer: f()
let k = if a: 1 elif b: 2 else: (3, 4)
let m = case c of 0: T(x: 1) else: d
