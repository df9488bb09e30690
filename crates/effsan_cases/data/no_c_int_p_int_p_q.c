
void f(void) {
int *p = (int *p)q;
}
