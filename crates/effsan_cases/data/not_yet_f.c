
void f(void) {
f();
}
