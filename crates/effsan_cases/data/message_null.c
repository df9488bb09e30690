void f(void) {
    int *p = (int *)p;
    p[0] = 1; }
