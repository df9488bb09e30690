void f(void) {
    int *p = malloc(8); free(p);
    p[0] = 1; }
