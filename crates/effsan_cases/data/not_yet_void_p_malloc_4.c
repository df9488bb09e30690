
void f(void) {
void *p = malloc(4);
}
