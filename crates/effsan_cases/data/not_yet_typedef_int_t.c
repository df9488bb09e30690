
void f(void) {
typedef int T;
}
