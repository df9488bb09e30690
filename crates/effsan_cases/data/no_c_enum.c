
void f(void) {
enum { };
}
