
void f(void) {
int8_t *p = malloc(4);
}
