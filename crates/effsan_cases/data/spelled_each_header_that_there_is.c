#include <stdio.h>
#include <stdlib.h>
#include <string.h>
#include <stddef.h>
#include <stdint.h>
#include <stdatomic.h>
void f(void) { printf("%d\n", 6); }