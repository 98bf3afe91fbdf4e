# A function is an object with one method; `fn` makes one without a name.
def twice(f, x) { return f(f(x)) }
twice(fn n { n + 1 }, 5)
