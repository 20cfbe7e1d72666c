# Run-length coding of each line: a run of a character becomes its length and the character.
proc packed(text: string): string =
  var at = 0
  while at < text.len:
    var past = at + 1
    while past < text.len and text[past] == text[at]:
      past += 1
    if past - at > 1:
      result &= $(past - at)
    result.add(text[at])
    at = past

proc unpacked(text: string): string =
  var times = 0
  for c in text:
    if c >= '0' and c <= '9':
      times = times * 10 + ord(c) - ord('0')
    else:
      for i in 1 .. (if times == 0: 1 else: times):
        result.add(c)
      times = 0

var line: string
while readLine(stdin, line):
  let short = packed(line)
  echo short
  if unpacked(short) != line:
    echo "differs: ", unpacked(short)
