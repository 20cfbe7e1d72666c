# Prints rows of strings as a table: each column is as wide as its widest field.
type
  Row = seq[string]

proc fields(line: string): Row =
  var field = ""
  var quoted = false
  for c in line:
    if c == '"':
      quoted = not quoted
    elif c == ',' and not quoted:
      result.add(field)
      field = ""
    else:
      field.add(c)
  result.add(field)

proc padded(field: string, width: int): string =
  result = field
  while result.len < width:
    result.add(' ')

proc widest(rows: seq[Row]): seq[int] =
  for row in rows:
    for i in 0 ..< row.len:
      if i == result.len:
        result.add(0)
      if row[i].len > result[i]:
        result[i] = row[i].len

proc line(row: Row, widths: seq[int]): string =
  for i in 0 ..< row.len:
    if i > 0:
      result &= " | "
    result &= padded(row[i], widths[i])

var rows: seq[Row]
for source in @["name,part,price", "bolt,M4x12,12", "\"nut, hex\",M4,7", "washer,M4,3", ",,"]:
  rows.add(fields(source))
let widths = widest(rows)
for row in rows:
  echo line(row, widths)
