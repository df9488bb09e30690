
void f(void) {
int i = 1
int j = 2;
}
