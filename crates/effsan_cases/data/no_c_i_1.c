
void f(void) {
i = 1,;
}
