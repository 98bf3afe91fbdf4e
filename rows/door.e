# Whoever holds `door` can look whether it is open; whoever holds `lock` can also shut it. A block hides what it defines.
var locked := false
var barred := false
def lock { method run(shut) { locked := shut } }
def door { method run() { if (!locked && !barred) { 'o' } else { 'c' } } }
door()
lock(true)
{ def seen := door(); seen.asInteger() - 'a'.asInteger() }
