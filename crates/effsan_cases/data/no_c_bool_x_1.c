
void f(void) {
_Bool x = 1;
}
