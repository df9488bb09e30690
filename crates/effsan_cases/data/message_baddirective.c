#define TWICE(x) x x
void f(void) {
}
