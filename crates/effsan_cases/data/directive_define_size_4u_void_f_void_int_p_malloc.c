#define SIZE 4u
void f(void) {
 int *p = malloc(SIZE); }