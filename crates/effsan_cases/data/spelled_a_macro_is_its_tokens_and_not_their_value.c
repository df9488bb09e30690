#define SUM 1 + 2
void f(void) { printf("%d\n", SUM * 3); printf("%d\n", (SUM) * 3); }