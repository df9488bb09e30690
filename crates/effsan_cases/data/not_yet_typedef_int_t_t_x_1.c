
void f(void) {
typedef int T; T x = 1;
}
