# DeepFrozen asks whether every name that the object uses is bound finally under a frozen guard.
def greeting :String := "hello"
def greeter implements DeepFrozen {
  to greet() { greeting }
}
greeter
