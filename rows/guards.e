# A guard decides what a name may be bound to; a failing guard throws.
def half(n :int) :int { return n // 2 }
def maybe :nullOk[int] := null
half(9)
