  #  include <stdio.h> // twice
#include<stdio.h>
void f(void) { printf("%d\n", 7); }