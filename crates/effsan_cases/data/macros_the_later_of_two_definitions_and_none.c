#define N 1
#define N 2
void f(void) { printf("%d\n", N);
#undef N
int N = 3; printf("%d\n", N); }