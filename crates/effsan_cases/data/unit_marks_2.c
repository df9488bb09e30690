void f(void) { }

