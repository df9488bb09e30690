static
const int
(*p)
[2] = {
sizeof
q };