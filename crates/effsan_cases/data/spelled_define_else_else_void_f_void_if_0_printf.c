#define ELSE } else {
void f(void) { if (0) { printf("%d\n", 1); ELSE printf("%d\n", 2); } }