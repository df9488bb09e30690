void f(void) {
 x = 1;
 return;
}
void f(void) {