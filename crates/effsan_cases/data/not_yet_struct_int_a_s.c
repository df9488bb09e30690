
void f(void) {
struct { int a; } s;
}
