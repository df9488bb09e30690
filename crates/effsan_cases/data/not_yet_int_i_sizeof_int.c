
void f(void) {
int i = sizeof(int);
}
