
void f(void) {
x: ;
}
