
void f(void) {
int x = 1; x[0] = 1;
}
