
void f(void) {
...;
}
