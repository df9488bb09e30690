
void f(void) {
struct S *p = malloc(4);
}
