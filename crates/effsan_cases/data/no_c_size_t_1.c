
void f(void) {
size_t = 1;
}
