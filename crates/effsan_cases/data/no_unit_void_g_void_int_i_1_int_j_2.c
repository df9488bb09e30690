void f(void) { }
void g(void) {
 int i = 1
 int j = 2;
}