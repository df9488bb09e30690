
void f(void) {
int a = 1a;
}
