#define A A
int x;