
void f(void) {
int i = 2 * (3 + -1);
}
