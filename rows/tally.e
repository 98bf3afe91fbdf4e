# A counter that is sent `incr` twice. Its vat takes each message in a turn of its own; what a sender has at once is a promise.
# The reaction waits until the second answer is there.
var n := 0
def counter { method incr() { n += 1 } }
counter <- incr()
def second := counter <- incr()
when (second) -> { second * 10 }
