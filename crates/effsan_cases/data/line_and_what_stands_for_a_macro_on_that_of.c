#define USE q[0]
void f(void) {
 int *q = (int *)q;

 USE
 = 1;
}
