
void f(void) {
int a = .5;
}
