int
= 1;
void f(void) {
