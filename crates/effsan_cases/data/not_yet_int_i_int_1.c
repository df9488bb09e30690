
void f(void) {
int i = (int)1;
}
