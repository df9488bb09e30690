void f(void) {
 int *q = (int *)q;
 while (0 <=
 q[0]) {
 }
}
