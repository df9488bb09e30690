#define BIG 4u
#define SMALL 4
void f(void) { int *p = malloc(SMALL); p[0] = SMALL; printf("%d\n", p[0]); }