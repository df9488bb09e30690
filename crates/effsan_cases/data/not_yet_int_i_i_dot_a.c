
void f(void) {
int i = i.a;
}
