
void f(void) {
int printf = 1;
}
