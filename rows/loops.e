# `break` leaves a loop, `continue` the turn of it.
var sum := 0
for i in 1..10 {
  if (i == 4) { continue }
  if (i > 8) { break }
  sum += i
}
while (sum > 20) { sum -= 7 }
sum
