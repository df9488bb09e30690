
void f(void) {
int i;
}
