# Two facets over one variable: whoever holds `up` can count, whoever holds `get` can only look.
# A `to` method answers null unless it returns; a `method` answers its last value.
var n := 0
def up { to run() { n += 1 } }
def get { method run() { n } }
up()
up()
get()
