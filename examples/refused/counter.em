% The word `then` is missing behind the condition: the source is refused at the token with which it can no longer become a
% program, and nothing is run.
const counter <- object counter
  var count : Integer
  export operation add [n : Integer]
    if n > 0
      count <- count + n
    end if
  end add
end counter
