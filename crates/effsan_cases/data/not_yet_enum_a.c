
void f(void) {
enum { A };
}
