
void f(void) {
int;
}
