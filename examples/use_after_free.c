void f(void) {
  int *a = malloc(8);
  a[0] = 1;
  free(a);
  int *b = malloc(8);
  b[0] = 5;
  printf("%d\n", b[0]);
  int x = a[0];
  free(b);
}
