
void f(void) {
short x = 1;
}
