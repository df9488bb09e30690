
void f(void) {
int x = 1; { int x = 2; int y = 3; int x = 4; }
}
