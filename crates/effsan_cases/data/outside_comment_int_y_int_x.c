void f(void) { } // int y;
int x;