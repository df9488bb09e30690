
void f(void) {
int i = (int);
}
