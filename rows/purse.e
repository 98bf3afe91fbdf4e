# A purse whose balance only `deposit` changes, and only by integers.
def makePurse(amount :int) {
  var balance :int := amount
  def purse {
    to getBalance() { return balance }
    to deposit(more :int) { balance += more }
  }
  return purse
}
def mine := makePurse(3)
mine.deposit(4)
mine.getBalance()
