
void f(void) {
static int x = 1;
}
