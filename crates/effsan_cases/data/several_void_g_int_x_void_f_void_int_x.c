void g(int x) { }
void f(void)
{
 int x = ;
}