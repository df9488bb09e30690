
void f(void) {
signed int x = 1;
}
