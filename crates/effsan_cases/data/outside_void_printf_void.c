void f(void) { }
void
printf(void) { }