
void f(void) {
int *p = malloc(1 + 1);
}
