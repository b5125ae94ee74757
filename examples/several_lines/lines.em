% Three texts, one after the other; case isn't significant in words.
Const poem <- OBJECT Poem
  Initially
    stdout.PutString["roses are red\n"]
    stdout.PutString["\ta tab, a quote: \"\n"]
    stdout.PutString["a backslash: \\"]
  End Initially
End poem
