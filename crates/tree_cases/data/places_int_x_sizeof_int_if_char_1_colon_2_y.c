int x = sizeof
(int
*) ? (char)
1 : 2, y[
3] = {
(4) };