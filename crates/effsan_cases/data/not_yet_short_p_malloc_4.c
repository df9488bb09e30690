
void f(void) {
short *p = malloc(4);
}
