#define FREE free(p);
#define TWICE FREE FREE
void f(void) { int *p = malloc(4);

 TWICE }