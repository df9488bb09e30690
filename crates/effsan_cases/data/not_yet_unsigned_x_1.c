
void f(void) {
unsigned x = 1;
}
