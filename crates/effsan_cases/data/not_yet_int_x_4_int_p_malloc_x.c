
void f(void) {
int x = 4; int *p = malloc(x);
}
