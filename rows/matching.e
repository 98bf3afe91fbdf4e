# A list pattern takes a specimen apart, and `=~` asks whether it does.
def [first, [second, _]] := [1, [2, 3]]
if ([4, 5] =~ [a, b]) { a + b } else { first + second }
