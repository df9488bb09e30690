
void f(void) {
default: { }
}
