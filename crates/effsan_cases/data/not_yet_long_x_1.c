
void f(void) {
long x = 1;
}
