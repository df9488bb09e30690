
void f(void) {
int x[1] = 1;
}
