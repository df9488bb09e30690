
void f(void) {
int *p = malloc();
}
