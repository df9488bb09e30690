void f(void) {
  int i = 0;
  while (i < 17) { char *p = malloc(1048559); if (p == NULL) printf("%d\n", i + 1); i++; }
  if (malloc(1048560) == NULL) printf("none\n");
}