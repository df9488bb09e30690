
void f(void) {
enum E x = 1;
}
