#define HEAD int

HEAD
f(void) { }
