A
#define A A
#line 3
A