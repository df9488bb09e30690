
void f(void) {
int *p = malloc(4); int *q = malloc(4); q = p;
}
