void f(void) { }
void g(void) { }

void
f() { }