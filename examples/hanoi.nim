# The towers of Hanoi: each move, and how many there are.
type Peg = enum
  left, middle, right

proc carry(discs: int, source, target, spare: Peg): int =
  if discs == 0:
    return 0
  result = carry(discs - 1, source, spare, target)
  echo source, " to ", target
  result += 1 + carry(discs - 1, spare, target, source)

echo carry(3, left, right, middle), " moves"
