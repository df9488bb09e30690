
void f(void) {
int *p = malloc(4); int *q = (int *const)p;
}
