#define ONE 1 2
void f(void) {
 int x =
  ONE;
}