#define EMPTY
#
void f(void) { EMPTY printf("%d\n", EMPTY 1 EMPTY); }
#undef EMPTY