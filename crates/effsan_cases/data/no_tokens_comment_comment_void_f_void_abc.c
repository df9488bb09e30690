// /*
void f(void) { "abc
 }"