
void f(void) {
(free)(1);
}
