
void f(void) {
auto int x = 1;
}
