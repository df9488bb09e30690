#include <stdlib.h>
int *p;
void s(void) { p = malloc(4); }
void one(void) { int x = *p; printf("%d\n", x); }
void two(void) { free(p); }