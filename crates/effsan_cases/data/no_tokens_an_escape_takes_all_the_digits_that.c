void f(void) {
 printf("\x25d\n", 1); }