void f(void) {
 if (1)
  int i = 1;
}