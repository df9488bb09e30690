
void f(void) {
int a = 1.5;
}
