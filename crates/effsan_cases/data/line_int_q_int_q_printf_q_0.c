void f(void) {
 int *q = (int *)q;
 printf(
"%d\n",
q[0]);
}
