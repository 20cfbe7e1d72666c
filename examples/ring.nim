# A log that keeps the last five lines: a ring of strings, as firmware has one for its last messages.
const size = 5

type
  Log = object
    lines: array[size, string]
    next: int
    count: int

proc note(log: var Log, line: string) =
  log.lines[log.next] = line
  log.next = (log.next + 1) mod size
  if log.count < size:
    log.count += 1

proc show(log: Log) =
  var at = (log.next + size - log.count) mod size
  for i in 1 .. log.count:
    echo i, ": ", log.lines[at]
    at = (at + 1) mod size

var log: Log
var line: string
var total = 0
while readLine(stdin, line):
  total += 1
  note(log, line)
show(log)
echo total, " lines in all"
