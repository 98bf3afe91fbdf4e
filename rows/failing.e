# The handler gets the problem; the last block runs either way.
var tries := 0
try { tries += 1; throw("bad") } catch problem { problem } finally { tries += 1 }
