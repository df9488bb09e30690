
void f(void) {
if () { }
}
