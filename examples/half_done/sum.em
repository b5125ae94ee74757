% A sum that is half done goes to another kind of node, where it ends: each call adds its number when the next one returns, and the
% last one moves the object on which all of them run.
const main <- object main
  export operation sum [n : Integer] -> [r : Integer]
    if n = 0 then
      move self to Node.at[1]
    else
      r <- n + self.sum[n - 1]
    end if
  end sum
  initially
    stdout.putstring[self.sum[20].asString]
  end initially
end main
