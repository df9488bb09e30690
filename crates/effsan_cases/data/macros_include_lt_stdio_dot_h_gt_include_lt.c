#include <stdio.h>
#include <stdlib.h>
#define LAST 3
void f(void) { int i = 1; while (i <= LAST) { printf("%d\n", i); i = i + 1; } }