
void f(void) {
int *p = malloc(4); char *q = malloc(4); q = (int *)p;
}
