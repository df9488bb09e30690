void f(void) { // x
 }