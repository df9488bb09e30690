
void f(void) {
int auto = 1;
}
