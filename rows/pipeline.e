# Messages go to a promise before it is resolved, and a reaction waits for the answer.
def [p, r] := Ref.promise()
def answer := p <- run(1) <- run(2)
when (answer) -> { answer } catch problem { problem }
r.resolve(5)
