

static
void
f(void)
{
}
