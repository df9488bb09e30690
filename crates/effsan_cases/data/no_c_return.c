
void f(void) {
return
}
