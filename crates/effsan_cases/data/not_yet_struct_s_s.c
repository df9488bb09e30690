
void f(void) {
struct S s;
}
