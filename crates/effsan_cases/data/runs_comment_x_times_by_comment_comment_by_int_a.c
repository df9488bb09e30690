void f(void) { /* x */ /* // */ int a = /* 2 */ 1; // *
 }