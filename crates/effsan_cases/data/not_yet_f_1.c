
void f(void) {
f(1);
}
