
void f(void) {
int a = 'a';
}
