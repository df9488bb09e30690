#define A A
void f(void) { A }