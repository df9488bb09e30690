int int;
#define A A

A