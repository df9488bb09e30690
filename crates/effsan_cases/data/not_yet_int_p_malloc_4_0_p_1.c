
void f(void) {
int *p = malloc(4); 0[p] = 1;
}
