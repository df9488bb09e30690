void f(void) { }
int x;
void g(void) { }
int y;
