void f(void) {
    int *p = malloc(8); p[2] = 1;
}
