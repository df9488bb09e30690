void f(void) { }
void g(void) { int x = 1; }
void h(void) {
 int x = 1;
 x++;
}
