# A table of squares, up to the first that has three digits.
var n = 0
var square = 0
while square <= 99:
  if n mod 2 == 0:
    echo "the square of an even number:"
  else:
    echo "the square of an odd number:"
  echo square
  n = n + 1
  square = n * n
