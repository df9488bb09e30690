void f(void) { }
void g(void)
{
 int x = 1;
 int x = 2;
}