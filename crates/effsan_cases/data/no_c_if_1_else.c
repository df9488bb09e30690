
void f(void) {
if (1) { } else
}
