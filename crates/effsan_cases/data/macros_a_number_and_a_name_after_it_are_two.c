#define abc
void f(void) { int x = 1abc; printf("%d\n", x); }