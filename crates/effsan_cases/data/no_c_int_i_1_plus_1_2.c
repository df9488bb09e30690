
void f(void) {
int i = 1 + 1 = 2;
}
