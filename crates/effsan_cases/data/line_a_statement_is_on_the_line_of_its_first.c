void f(void)
{
 int *q = (int *)q;
 int
 x
 =
 q[0];
}
