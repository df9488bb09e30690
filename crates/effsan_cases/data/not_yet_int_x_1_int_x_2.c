
void f(void) {
int x = 1; int x = 2;
}
