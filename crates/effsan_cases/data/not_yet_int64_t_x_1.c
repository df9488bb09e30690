
void f(void) {
int64_t x = 1;
}
