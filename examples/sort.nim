# Insertion sort of an array, in place.
proc sort(numbers: var array[8, int]) =
  for i in 1 ..< len(numbers):
    let number = numbers[i]
    var at = i
    while 0 < at and number < numbers[at - 1]:
      numbers[at] = numbers[at - 1]
      at -= 1
    numbers[at] = number

var numbers = [5, -3, 12, 0, 7, -8, 3, 1]
sort(numbers)
for number in numbers:
  echo number
