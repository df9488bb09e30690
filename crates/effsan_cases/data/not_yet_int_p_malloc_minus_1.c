
void f(void) {
int *p = malloc(-1);
}
