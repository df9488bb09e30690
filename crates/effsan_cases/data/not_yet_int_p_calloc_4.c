
void f(void) {
int *p = calloc(4);
}
