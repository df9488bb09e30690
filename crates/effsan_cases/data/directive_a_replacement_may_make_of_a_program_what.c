#define x 1
void f(void) {
 int x = 1; }