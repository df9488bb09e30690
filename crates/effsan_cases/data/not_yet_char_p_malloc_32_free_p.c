
void f(void) {
char *p = malloc(32); free(p);
}
