# What operators mean as calls: the tightest binds first.
def x := 7
(-x ** 2 + 3 * (x % 4)) & 255
