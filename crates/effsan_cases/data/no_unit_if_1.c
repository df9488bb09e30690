void f(void) {
 if (1)
 {
 }
