#include <stdlib.h>
void f(void) {
  int *p = malloc(0);
  p[0] = 1;
}