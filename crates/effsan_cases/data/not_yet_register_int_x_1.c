
void f(void) {
register int x = 1;
}
