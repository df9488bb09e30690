void f(void) { i\
nt x = 4; w\
hile (x < 5) x = x + 1; printf("%d\n", x); }