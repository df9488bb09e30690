#define EMPTY
void f(void) {
 EMPTY
