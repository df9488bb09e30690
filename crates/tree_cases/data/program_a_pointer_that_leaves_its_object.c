#include <stdlib.h>
int *g;
void f(void) {
  int *p = malloc(40);
  g = p + 1000;
}