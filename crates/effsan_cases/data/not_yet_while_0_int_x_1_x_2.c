
void f(void) {
while (0) { int x = 1; } x = 2;
}
