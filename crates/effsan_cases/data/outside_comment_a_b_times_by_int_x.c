void f(void) { } /* a
 b */ int
 x;