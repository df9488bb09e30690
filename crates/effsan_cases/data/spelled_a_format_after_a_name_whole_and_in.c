#define F "%d\n"
#define N 8
void f(void) { printf(F, N); }