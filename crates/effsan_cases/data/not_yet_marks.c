
void f(void) {
;
}
