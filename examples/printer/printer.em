% A printer is fixed at its node. It can't be moved, nor can what holds it as an attached field; a document goes to it.
const printer <- object printer
  var printed : Integer
  export operation print [text : String]
    printed <- printed + 1
    stdout.putstring[printed.asString || ": " || text || "\n"]
  end print
end printer

const Document <- class Document [text : String]
  export operation go
    move self to printer
    printer.print[text]
  end go
end Document

const Desk <- class Desk [work : Document]
  attached const device : Any <- printer
  export operation leave
    move self to Node.at[1]
    work.go
  end leave
end Desk

const main <- object main
  initially
    fix printer at Node.at[1]
    const letter <- Document.create["a letter"]
    const desk <- Desk.create[letter]
    desk.leave
    const note <- Document.create["a note"]
    note.go
    if isfixed printer then
      stdout.putstring["The printer is fixed.\n"]
    end if
  end initially
end main
