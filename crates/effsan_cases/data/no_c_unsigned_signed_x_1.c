
void f(void) {
unsigned signed x = 1;
}
