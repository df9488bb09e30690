#define VA\
LUE 5
void f(void) { printf("%d\n", V\
ALUE); }