void f(void) { int a\
b = 2; printf("%d\n", ab); }