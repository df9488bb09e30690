#define x 1
#undef x
void f(void) { int x = 13;
#define x x_1
int x = 14; printf("%d\n", x);
#undef x
printf("%d\n", x); }