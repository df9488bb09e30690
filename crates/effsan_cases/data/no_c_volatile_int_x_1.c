
void f(void) {
volatile int x = 1;
}
