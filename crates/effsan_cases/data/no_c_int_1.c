
void f(void) {
int = 1;
}
