void f(void) { }
void f(void) { }
int int;