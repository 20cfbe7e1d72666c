# Reads comma-separated values, with quotes, and prints each column as wide as its widest field.
type
  Row = seq[string]

proc fields(line: string): Row =
  var field = ""
  var quoted = false
  var at = 0
  while at < line.len:
    let c = line[at]
    if quoted:
      if c == '"' and at + 1 < line.len and line[at + 1] == '"':
        field.add('"')
        at += 1
      elif c == '"':
        quoted = false
      else:
        field.add(c)
    elif c == '"':
      quoted = true
    elif c == ',':
      result.add(field)
      field = ""
    else:
      field.add(c)
    at += 1
  result.add(field)

proc padded(field: string, width: int): string =
  result = field
  while result.len < width:
    result.add(' ')

var rows: seq[Row]
var widths: seq[int]
var line: string
while readLine(stdin, line):
  let row = fields(line)
  for i in 0 ..< row.len:
    if i == widths.len:
      widths.add(0)
    if row[i].len > widths[i]:
      widths[i] = row[i].len
  rows.add(row)

for row in rows:
  var shown = ""
  for i in 0 ..< row.len:
    if i > 0:
      shown &= " | "
    shown &= padded(row[i], widths[i])
  echo shown
