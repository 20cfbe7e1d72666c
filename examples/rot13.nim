# ROT13: each letter of the input goes on by thirteen, so that twice is nothing.
proc turn(c: var char, first: char) =
  c = chr((ord(c) - ord(first) + 13) mod 26 + ord(first))

var line: string
while readLine(stdin, line):
  for i in 0 .. line.high:
    case line[i]
    of 'a'..'z': turn(line[i], 'a')
    of 'A'..'Z': turn(line[i], 'A')
    else: discard
  echo line
