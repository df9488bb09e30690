
void f(void) {
if (1) { } else int i = 1;
}
