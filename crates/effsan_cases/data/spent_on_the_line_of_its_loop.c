void f(void) {
  printf("%d\n", 5);
  int i = 0;
  while (0 <= 1)
    i =
 i + 1; }