
void f(void) {
int x = y;
}
