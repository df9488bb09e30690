
void f(void) {
int a = 1l;
}
