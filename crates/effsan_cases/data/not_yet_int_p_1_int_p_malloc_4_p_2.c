
void f(void) {
int p = 1; { int *p = malloc(4); p = 2; }
}
