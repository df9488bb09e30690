
void f(void) {
int *p = 0;
}
