
void f(void) {
int i, j;
}
