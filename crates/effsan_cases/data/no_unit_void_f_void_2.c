void f(void)
{
}
;
