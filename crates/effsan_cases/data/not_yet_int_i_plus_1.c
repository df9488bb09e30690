
void f(void) {
int i = +1;
}
