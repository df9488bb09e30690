
void f(void) {
malloc(4);
}
