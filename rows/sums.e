# An object with a method of two parameters, called on its own answer.
def sum { method run(a, b) { a + b } }
sum(sum(1, 2), 39)
