% Numbers are sorted in a vector, by insertion.
const sorter <- object sorter
  export operation sort [v : vector.of[Integer]]
    var i : Integer <- 1
    loop
      exit when i >= v.size
      var n : Integer <- v[i]
      var j : Integer <- i
      loop
        exit when j = 0
        exit when v[j - 1] <= n
        v[j] <- v[j - 1]
        j <- j - 1
      end loop
      v[j] <- n
      i <- i + 1
    end loop
  end sort
end sorter

const main <- object main
  initially
    const v : vector.of[Integer] <- vector.of[Integer].create[6]
    var i : Integer
    loop
      exit when i = v.size
      v[i] <- (i * 7 + 3) # 10
      i <- i + 1
    end loop
    sorter.sort[v]
    i <- 0
    loop
      exit when i = v.size
      stdout.putstring[v[i].asString || " "]
      i <- i + 1
    end loop
  end initially
end main
