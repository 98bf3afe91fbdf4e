# A caretaker lends its target until it is revoked; a matcher forwards every message.
def makeCaretaker(target) {
  var live := true
  def caretaker {
    match [verb, args] {
      if (live) { E.call(target, verb, args) } else { throw("revoked") }
    }
  }
  def revoke { to run() { live := false } }
  return [caretaker, revoke]
}
makeCaretaker
