% Who signals waits until the one that it wakes has left the monitor. While it waits, the monitor goes to another kind of node, and with it
% the woken one, the one that signalled, and one that waits to enter: there they come on in this order.
const room <- monitor object room
  const bell <- Condition.create
  export operation sleep
    wait bell
    stdout.putstring["woken\n"]
  end sleep
  export operation wake
    signal bell
    stdout.putstring["signalled\n"]
  end wake
end room

const Guest <- class Guest [sleeps : Boolean]
  process
    if sleeps then room.sleep else room.wake end if
  end process
end Guest

const first <- Guest.create[true]
const second <- Guest.create[false]
const third <- Guest.create[false]
