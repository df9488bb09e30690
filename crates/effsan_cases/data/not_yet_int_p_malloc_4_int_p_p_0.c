
void f(void) {
int *p = malloc(4); { int p = p[0]; }
}
