void bytes(void) {
  char *c = malloc(8);
  int *q = (int *)c;
  q[1] = 258;
  printf("%d\n", c[4]);
  printf("%d\n", c[5]);
  free(q);
}

void part(void) {
  int *p = malloc(6);
  p[0] = 7;
  int *q = (int *)p;
  printf("%d\n", q[0]);
  q[1] = 8;
}
