# A calculator: each line of its input is an expression of numbers, + - * / and parentheses.
type
  Reader = object
    text: string
    at: int
    fault: string

proc peek(r: Reader): char =
  if r.at < r.text.len: r.text[r.at] else: '\0'

proc skip(r: var Reader) =
  while peek(r) == ' ':
    r.at += 1

proc fail(r: var Reader, why: string) =
  if r.fault.len == 0:
    r.fault = why & " at " & $(r.at + 1)

proc sum(r: var Reader): int

proc number(r: var Reader): int =
  skip(r)
  if peek(r) == '-':
    r.at += 1
    return -number(r)
  if peek(r) == '(':
    r.at += 1
    result = sum(r)
    skip(r)
    if peek(r) == ')':
      r.at += 1
    else:
      fail(r, "no )")
    return
  if peek(r) < '0' or peek(r) > '9':
    fail(r, "no number")
  while peek(r) >= '0' and peek(r) <= '9':
    result = result * 10 + ord(peek(r)) - ord('0')
    r.at += 1

proc product(r: var Reader): int =
  result = number(r)
  while true:
    skip(r)
    if peek(r) == '*':
      r.at += 1
      let by = number(r)
      result *= by
    elif peek(r) == '/':
      r.at += 1
      let by = number(r)
      if by == 0:
        fail(r, "division by 0")
        return 0
      result = result div by
    else:
      return

proc sum(r: var Reader): int =
  result = product(r)
  while true:
    skip(r)
    if peek(r) == '+':
      r.at += 1
      let more = product(r)
      result += more
    elif peek(r) == '-':
      r.at += 1
      let less = product(r)
      result -= less
    else:
      return

proc answer(line: string): string =
  var r = Reader(text: line)
  let value = sum(r)
  skip(r)
  if r.at < r.text.len:
    fail(r, "more than an expression")
  if r.fault.len > 0: "error: " & r.fault else: $value

var line: string
while readLine(stdin, line):
  if line.len > 0:
    echo line, " = ", answer(line)
