
void f(void) {
if (1) int *p = malloc(4);
}
