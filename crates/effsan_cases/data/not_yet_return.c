
void f(void) {
return;
}
