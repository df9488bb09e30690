void f(void) { typedef int T; T x; }
void g(void) {
 T x; }