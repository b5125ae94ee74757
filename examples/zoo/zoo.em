% Two classes that nobody declared to be animals conform to the type of animals; a stone doesn't.
const Animal <- typeobject Animal
  operation sound -> [s : String]
end Animal

const Dog <- class Dog [name : String]
  export operation sound -> [s : String]
    s <- name || " barks"
  end sound
end Dog

const Owl <- class Owl
  var nights : Integer
  export operation sound -> [s : String]
    nights <- nights + 1
    s <- "hoo " || nights.asString
  end sound
end Owl

const stone <- object stone
end stone

const zoo <- object zoo
  initially
    const cages : vector.of[Any] <- vector.of[Any].create[3]
    cages[0] <- Dog.create["Rex"]
    cages[1] <- Owl.create
    cages[2] <- stone
    var i : Integer
    loop
      exit when i = cages.size
      const animal : Animal <- view cages[i] as Animal
      stdout.putstring[animal.sound || "\n"]
      i <- i + 1
    end loop
  end initially
end zoo
