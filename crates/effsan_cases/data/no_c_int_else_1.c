
void f(void) {
int else = 1;
}
