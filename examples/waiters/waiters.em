% Two processes wait in a monitor for places at a table. The table is moved while they wait, and they go with it: there the places are
% given to them in the order in which they came.
const table <- monitor object table
  var free : Integer
  const some <- Condition.create
  export operation sit [who : Integer]
    if free = 0 then
      wait some
    end if
    free <- free - 1
    stdout.putstring["guest " || who.asString || " sits\n"]
  end sit
  export operation clear
    free <- free + 1
    signal some
  end clear
end table

const Guest <- class Guest [who : Integer]
  process
    table.sit[who]
  end process
end Guest

const Host <- class Host
  process
    move table to Node.at[1]
    table.clear
    table.clear
  end process
end Host

const first <- Guest.create[1]
const second <- Guest.create[2]
const owner <- Host.create
