
void f(void) {
int *p = malloc(4, 4);
}
