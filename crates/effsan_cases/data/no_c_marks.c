
void f(void) {
{
}
