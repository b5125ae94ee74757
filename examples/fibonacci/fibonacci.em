% The first numbers of Fibonacci, by recursion, on a MIPS node: each call has an activation of its own, in a frame of its own.
const numbers <- object numbers
  export operation fibonacci [n : Integer] -> [f : Integer]
    if n < 2 then
      f <- n
    else
      f <- self.fibonacci[n - 1] + self.fibonacci[n - 2]
    end if
  end fibonacci
end numbers

const main <- object main
  initially
    var i : Integer
    loop
      exit when i > 10
      stdout.putstring[numbers.fibonacci[i].asString || " "]
      i <- i + 1
    end loop
  end initially
end main
