
void f(void) {
int i = f();
}
