
void f(void) {
x = 1; int x = 2;
}
