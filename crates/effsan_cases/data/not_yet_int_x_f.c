
void f(void) {
int x = f;
}
