
void f(void) {
int *const p = malloc(4);
}
