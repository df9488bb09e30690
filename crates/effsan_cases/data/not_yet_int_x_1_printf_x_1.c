
void f(void) {
int x = 1; printf(x, 1);
}
