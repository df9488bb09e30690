
void f(void) {
int *p[1] = malloc(4);
}
