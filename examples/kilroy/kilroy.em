% A process that visits each node, and says so where it is.
const Kilroy <- class Kilroy
  process
    var k : Integer
    loop
      exit when k = Node.count
      move self to Node.at[k]
      stdout.putstring["Kilroy was at node " || k.asString || "\n"]
      k <- k + 1
    end loop
  end process
end Kilroy

const visitor <- Kilroy.create
