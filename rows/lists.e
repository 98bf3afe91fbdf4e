# Lists, their members in turn, and the sum of a range.
var sum := 0
for n in 1..4 { sum += n }
def pair := [sum, ["a list", 'é']]
for place => member in pair { sum += place }
while (sum > 6) { sum -= 2 }
pair.with(sum) + [1].run(0, 1)
