# Breaks the words of standard input into lines of at most 40 characters.
const width = 40

proc words(line: string): seq[string] =
  var word = ""
  for c in line:
    if c == ' ' or c == '\t':
      if word.len > 0:
        result.add(word)
        word = ""
    else:
      word.add(c)
  if word.len > 0:
    result.add(word)

var text = ""
var line = ""
while readLine(stdin, line):
  let all = words(line)
  if all.len == 0:
    if text.len > 0:
      echo text
      text = ""
    echo ""
  for word in all:
    if text.len > 0 and text.len + 1 + word.len > width:
      echo text
      text = word
    elif text.len > 0:
      text &= ' '
      text &= word
    else:
      text = word
if text.len > 0:
  echo text
