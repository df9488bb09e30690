
void f(void) {
int i = i = 1;
}
