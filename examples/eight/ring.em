% A token goes around eight nodes of two kinds, twice. At each node a counter that lives there adds one, and says how often the token came.
const Counter <- class Counter [home : Integer]
  var times : Integer
  export operation meet -> [r : Integer]
    times <- times + 1
    r <- times
  end meet
  initially
    move self to Node.at[home]
  end initially
end Counter

const main <- object main
  initially
    const counters : vector.of[Counter] <- vector.of[Counter].create[Node.count]
    var k : Integer
    loop
      exit when k = Node.count
      counters[k] <- Counter.create[k]
      k <- k + 1
    end loop
    var round : Integer
    var text : String
    loop
      exit when round = 2
      k <- 0
      loop
        exit when k = Node.count
        move self to Node.at[k]
        text <- text || counters[k].meet.asString
        k <- k + 1
      end loop
      round <- round + 1
    end loop
    stdout.putstring[text]
  end initially
end main
