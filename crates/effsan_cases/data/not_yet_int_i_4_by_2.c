
void f(void) {
int i = 4 / 2;
}
