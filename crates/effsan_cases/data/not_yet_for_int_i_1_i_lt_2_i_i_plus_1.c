
void f(void) {
for (int i = 1; i < 2; i = i + 1) { }
}
