int x = a
.b
[1](
'c', "d"
"e")++;