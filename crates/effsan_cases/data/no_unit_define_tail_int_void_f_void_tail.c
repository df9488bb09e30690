#define TAIL int
void f(void) { }

TAIL
