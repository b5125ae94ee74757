% Read and checked whole: a typeobject, a class that conforms to it, a monitored class with a condition and a process, a
% vector, and a move. `emerald check` accepts it.
const Counted <- typeobject Counted
  operation count -> [n : Integer]
end Counted

const Shelf <- monitor class Shelf [room : Integer]
  var held : Integer <- 0
  const taken <- condition.create
  export operation put
    loop
      exit when held < room
      wait taken
    end loop
    held <- held + 1
  end put
  export operation take
    held <- held - 1
    signal taken
  end take
  export operation count -> [n : Integer]
    n <- held
  end count
end Shelf

const west <- Shelf.create[10]

const Clerk <- class Clerk [own : Shelf]
  process
    var i : Integer
    loop
      exit when i = 3
      own.put
      i <- i + 1
    end loop
  end process
end Clerk

const worker <- Clerk.create[west]

const inventory <- object inventory
  const shelves : vector.of[Counted] <- vector.of[Counted].create[2]
  export operation total -> [sum : Integer]
    shelves[0] <- west
    var i : Integer
    loop
      exit when i = shelves.size
      var one : Counted <- shelves[i]
      if one !== nil then
        sum <- sum + one.count
      end if
      i <- i + 1
    end loop
  end total
  initially
    move west to node.at[0]
    stdout.putstring[self.total.asString || "\n"]
  end initially
end inventory
