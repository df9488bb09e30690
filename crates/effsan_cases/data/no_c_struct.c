
void f(void) {
struct { };
}
