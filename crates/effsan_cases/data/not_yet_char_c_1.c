
void f(void) {
char c = 1;
}
