void f(void) { int xy = 1; x\
y = 2; printf("%d\n", xy); }