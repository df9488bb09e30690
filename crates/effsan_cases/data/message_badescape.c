void f(void) {
    int x = 'ab';
}
