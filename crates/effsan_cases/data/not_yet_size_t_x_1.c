
void f(void) {
size_t x = 1;
}
