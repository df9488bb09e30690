void f(void) {
 int *p = malloc(4); free(p
);
 /* */ free(p
);
}
