
void f(void) {
const int x = 1;
}
