
void f(void) {
union U { int a; };
}
