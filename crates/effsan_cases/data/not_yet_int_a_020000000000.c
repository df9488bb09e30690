
void f(void) {
int a = 020000000000;
}
