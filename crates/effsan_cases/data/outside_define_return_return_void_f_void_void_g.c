#define RETURN return;
void f(void) { }
void g(void)
{
 RETURN
}
