
void f(void) {
int malloc = 1;
}
