
void f(void) {
int x = 1; int *q = (int *)x;
}
