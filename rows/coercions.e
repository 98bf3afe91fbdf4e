# A guard that is an object is asked to coerce, with an ejector or null; what it answers is bound.
# A guard of a `var` is asked at each assignment, with null.
def even {
  to coerce(specimen, ejector) {
    if (specimen % 2 == 0) { return specimen }
    if (ejector == null) { throw("odd") } else { ejector("odd") }
  }
}
var held :even := 4
held := 6
def first := escape ej { def x :even exit ej := 3; x }
def second := try { held := 7 } catch problem { problem }
def third := escape ej { def y :boolean exit ej := first; y }
def fourth := try { nullOk[int].coerce(first, null) } catch problem { problem }
def fifth := try { def z :held := 1; z } catch problem { problem }
[first, second, third, fourth, fifth, held, void.coerce(1, null)]
