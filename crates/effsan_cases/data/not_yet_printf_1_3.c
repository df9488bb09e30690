
void f(void) {
(printf)("%d\n", 1);
}
