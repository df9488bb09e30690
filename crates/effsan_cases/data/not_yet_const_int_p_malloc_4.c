
void f(void) {
const int *p = malloc(4);
}
