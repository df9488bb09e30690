
void f(void) {
int a = 08;
}
