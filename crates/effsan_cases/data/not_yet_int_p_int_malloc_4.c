
void f(void) {
int *p = (int *)malloc(4);
}
