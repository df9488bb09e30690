
void f(void) {
unsigned char *p = malloc(4);
}
