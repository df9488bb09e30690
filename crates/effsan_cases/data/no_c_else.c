
void f(void) {
else { }
}
