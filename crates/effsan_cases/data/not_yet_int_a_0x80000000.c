
void f(void) {
int a = 0x80000000;
}
