void f(void) { int ab = 1; { int a\
b = 2; printf("%d\n", ab); } printf("%d\n", a\
\
b); }