
void f(void) {
const x = 1;
}
