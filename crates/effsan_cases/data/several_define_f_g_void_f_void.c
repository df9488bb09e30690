#define f g
void f(void) { }
