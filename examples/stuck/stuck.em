% A process waits for a signal that never comes: in the end no process can go on.
const gate <- monitor object gate
  const opened <- condition.create
  export operation pass
    wait opened
  end pass
end gate

const visitor <- object visitor
  process
    stdout.putstring["before\n"]
    gate.pass
    stdout.putstring["behind\n"]
  end process
end visitor
