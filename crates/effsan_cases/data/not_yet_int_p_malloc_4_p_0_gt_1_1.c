
void f(void) {
int *p = malloc(4); p[0 > 1] = 1;
}
