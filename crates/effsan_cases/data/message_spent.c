void f(void) {
    while (1) { }
}
