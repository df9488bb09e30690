
void f(void) {
signed char *p = malloc(4);
}
