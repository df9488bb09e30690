


'a