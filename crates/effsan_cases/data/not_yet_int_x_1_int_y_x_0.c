
void f(void) {
int x = 1; int y = x[0];
}
