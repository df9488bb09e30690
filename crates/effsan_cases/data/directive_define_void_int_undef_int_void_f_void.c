#define void int
#undef int
void f(void) { }