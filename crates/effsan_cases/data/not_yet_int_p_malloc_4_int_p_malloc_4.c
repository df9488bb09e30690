
void f(void) {
int *p = malloc(4); int *p = malloc(4);
}
