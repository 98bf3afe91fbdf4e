# Texts that are put together, and the characters of one, each with its place.
var told := ""
def greet { method run(name) { "hello, " + name } }
def each { method run(place, letter) { told := told + place + letter } }
"né".iterate(each)
greet(told + "!").size()
