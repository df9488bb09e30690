
void f(void) {
switch (1) { }
}
