void f(void) { }
@