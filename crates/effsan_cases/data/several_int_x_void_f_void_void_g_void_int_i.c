int x;
void f(void) { }
void g(void) {
 int i = ;
}