
void f(void) {
int a = 2147483648;
}
