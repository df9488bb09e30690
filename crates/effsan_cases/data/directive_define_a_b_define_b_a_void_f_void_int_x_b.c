#define A B
#define B A

void f(void) { int x = B; }