
void f(void) {
switch (1) { case 1: break; default: ; }
}
