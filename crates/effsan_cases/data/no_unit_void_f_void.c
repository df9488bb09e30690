void f(void)
{
}
}
