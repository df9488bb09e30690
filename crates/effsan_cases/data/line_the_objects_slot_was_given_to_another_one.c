#include <stdlib.h>
void f(void) {
  int *a = malloc(8);
  free(a);
  int *b = malloc(8);
  b[0] = 5;
  int x = a[0];
  free(b);
}
