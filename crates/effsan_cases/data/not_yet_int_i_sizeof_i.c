
void f(void) {
int i = sizeof i;
}
