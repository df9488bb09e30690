
void f(void) {
signed x = 1;
}
