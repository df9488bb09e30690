void f(void) { int x = 1; }
void g(void) {
 int y = 1;
 {
  x = y;
 }
}