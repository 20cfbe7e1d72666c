# The greatest common divisor of two numbers, after Euclid.
var a = 1071
var b = 462
var rest = 0
while 0 < b:
  rest = a mod b
  a = b
  b = rest
echo a
