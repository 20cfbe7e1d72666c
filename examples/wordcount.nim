# Counts the words of standard input, and prints them by how often they come, then by name.
type
  Count = object
    word: string
    times: int

proc isLetter(c: char): bool =
  (c >= 'a' and c <= 'z') or (c >= 'A' and c <= 'Z') or c == '\''

proc lower(c: char): char =
  if c >= 'A' and c <= 'Z': chr(ord(c) + 32) else: c

proc note(counts: var seq[Count], word: string) =
  for i in 0 ..< counts.len:
    if counts[i].word == word:
      counts[i].times += 1
      return
  counts.add(Count(word: word, times: 1))

proc isBefore(a, b: Count): bool =
  if a.times != b.times: a.times > b.times else: a.word < b.word

proc sort(counts: var seq[Count]) =
  for i in 1 ..< counts.len:
    var at = i
    while at > 0 and isBefore(counts[at], counts[at - 1]):
      swap(counts[at], counts[at - 1])
      at -= 1

var counts: seq[Count]
var line = ""
while readLine(stdin, line):
  var word = ""
  for c in line:
    if isLetter(c):
      word.add(lower(c))
    elif word.len > 0:
      note(counts, word)
      word.setLen(0)
  if word.len > 0:
    note(counts, word)

sort(counts)
for count in counts:
  echo count.times, " ", count.word
