
void f(void) {
int *p = malloc(4); { int p = 1; p[0] = 1; }
}
