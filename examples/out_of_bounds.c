void f(void) {
  int *p = malloc(12);
  int i = 0;
  while (i <= 3) {
    p[i] = i * i;
    printf("%d\n", p[i]);
    i = i + 1;
  }
}
