
void f(void) {
g();
}
