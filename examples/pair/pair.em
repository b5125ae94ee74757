% Two objects that are attached to each other go together, wherever one of them is moved to; a third one, to which they only refer, stays.
const Half <- class Half [name : String]
  attached var other : Half
  var friend : Any
  export operation tie [x : Half, y : Any]
    other <- x
    friend <- y
  end tie
  export operation go [k : Integer]
    move self to Node.at[k]
    stdout.putstring[name || " goes to node " || k.asString || "\n"]
  end go
end Half

const friend <- object friend
end friend
const left <- Half.create["left"]
const right <- Half.create["right"]

const main <- object main
  initially
    left.tie[right, friend]
    right.tie[left, friend]
    left.go[1]
    right.go[2]
  end initially
end main
