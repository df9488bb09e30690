
void f(void) {
int *p;
}
