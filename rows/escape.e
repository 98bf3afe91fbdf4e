# The first member above ten, or null.
def firstAbove(limit, members) {
  for m in members {
    if (m > limit) { return m }
  }
  return null
}
firstAbove(10, [3, 12, 40])
