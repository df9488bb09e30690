
void f(void) {
{ int y = 1; { int z = y; } int x = z; }
}
