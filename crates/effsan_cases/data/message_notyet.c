void f(void) {
    int x = 4 / 2;
}
