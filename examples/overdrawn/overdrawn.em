% An account that refuses to be overdrawn: the assertion fails, and so does the process.
const account <- object account
  var balance : Integer <- 100
  export operation withdraw [n : Integer] -> [left : Integer]
    assert n <= balance
    balance <- balance - n
    left <- balance
  end withdraw
end account

const customer <- object customer
  initially
    stdout.putstring[account.withdraw[70].asString || " left\n"]
    stdout.putstring[account.withdraw[40].asString || " left\n"]
  end initially
end customer
