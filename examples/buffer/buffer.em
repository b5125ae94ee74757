% A buffer of one place between two processes: who puts waits until it is empty, who takes until it is full (Hoare 1974).
const buffer <- monitor object buffer
  const full <- condition.create
  const empty <- condition.create
  var count : Integer
  var held : Integer
  export operation put [n : Integer]
    if count = 1 then
      wait empty
    end if
    held <- n
    count <- 1
    signal full
  end put
  export operation take -> [n : Integer]
    if count = 0 then
      wait full
    end if
    n <- held
    count <- 0
    signal empty
  end take
end buffer
const producer <- object producer
  process
    var i : Integer <- 1
    loop
      exit when i > 3
      buffer.put[i]
      i <- i + 1
    end loop
  end process
end producer
const consumer <- object consumer
  process
    var i : Integer <- 1
    loop
      exit when i > 3
      stdout.putstring[buffer.take.asString || " "]
      i <- i + 1
    end loop
  end process
end consumer
