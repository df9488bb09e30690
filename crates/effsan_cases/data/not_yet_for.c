
void f(void) {
for (;;) { }
}
