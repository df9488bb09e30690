void f(void) {
 int *q = (int *)q;
 if (1)
  { } else { }
 if (1)
  q
[0] = 1;
}
