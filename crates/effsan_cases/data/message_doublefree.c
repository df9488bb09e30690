void f(void) {
    int *p = malloc(8); free(p);
    free(p); }
