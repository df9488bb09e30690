
void f(void) {
if (1) { int x = 1; } x = 2;
}
