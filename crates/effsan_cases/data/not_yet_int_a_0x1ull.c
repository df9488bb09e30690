
void f(void) {
int a = 0x1ull;
}
