# Morse code: a line of letters is written in dots and dashes, and a line of dots and dashes in letters.
const
  letters = "abcdefghijklmnopqrstuvwxyz0123456789"
  codes = [
    ".-", "-...", "-.-.", "-..", ".", "..-.", "--.", "....", "..", ".---", "-.-", ".-..", "--",
    "-.", "---", ".--.", "--.-", ".-.", "...", "-", "..-", "...-", ".--", "-..-", "-.--", "--..",
    "-----", ".----", "..---", "...--", "....-", ".....", "-....", "--...", "---..", "----."]

proc lower(c: char): char =
  if c >= 'A' and c <= 'Z': chr(ord(c) - ord('A') + ord('a')) else: c

proc code(c: char): string =
  for i in 0 .. letters.high:
    if letters[i] == lower(c):
      return codes[i]
  "?"

proc sent(line: string): string =
  for c in line:
    if result.len > 0:
      result.add(' ')
    result &= (if c == ' ': "/" else: code(c))

proc letter(code: string): char =
  for i in 0 .. codes.high:
    if codes[i] == code:
      return letters[i]
  '?'

proc heard(line: string): string =
  var code = ""
  for c in line & " ":
    if c == '.' or c == '-':
      code.add(c)
    elif c == '/':
      result.add(' ')
    elif code.len > 0:
      result.add(letter(code))
      code = ""

proc longest(): string =
  for code in codes:
    if code.len > result.len:
      result = code

var line: string
while readLine(stdin, line):
  if line.len > 0 and (line[0] == '.' or line[0] == '-'):
    echo heard(line)
  else:
    echo sent(line)
echo codes.len, " codes, of at most ", longest().len, " signs"
