% Five wagons, each attached to the one behind it. A call goes from wagon to wagon; the last one moves the first one, and with it go all
% wagons and the calls that run on them, which then add up the loads on another kind of node.
const Wagon <- class Wagon [rest : Wagon, load : Integer]
  attached const next : Wagon <- rest
  export operation weigh [first : Wagon, place : Integer] -> [r : Integer]
    if next == nil then
      move first to Node.at[place]
      r <- load
    else
      r <- load + next.weigh[first, place]
    end if
  end weigh
end Wagon

const main <- object main
  initially
    var first : Wagon
    var i : Integer <- 0
    loop
      exit when i = 5
      i <- i + 1
      first <- Wagon.create[first, i]
    end loop
    stdout.putstring[first.weigh[first, 1].asString || "\n"]
    stdout.putstring[first.weigh[first, 0].asString || "\n"]
    stdout.putstring[first.weigh[first, 1].asString || "\n"]
  end initially
end main
