# Counts down, and says when it is done.
var left = 10
while 0 < left:
  echo left
  left = left - 1
echo "done"
