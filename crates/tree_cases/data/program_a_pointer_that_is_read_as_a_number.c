#include <stdlib.h>
union W { long n; int *p; };
void f(void) {
  union W w;
  int *a = malloc(4);
  w.p = a;
  long x = w.n;
}