void f(void) { }
