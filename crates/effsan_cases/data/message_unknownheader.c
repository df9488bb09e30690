#include <maths.h>
void f(void) {
}
