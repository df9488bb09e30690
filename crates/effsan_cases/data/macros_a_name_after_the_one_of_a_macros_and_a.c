#define whiles while
void f(void) { int x = 1; whiles (x < 3) x = x + 1; printf("%d\n", x); }