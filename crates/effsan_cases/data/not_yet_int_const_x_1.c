
void f(void) {
int const x = 1;
}
