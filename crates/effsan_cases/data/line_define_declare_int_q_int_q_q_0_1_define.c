#define DECLARE int *q = (int *)q; q[0] = 1;
#define BODY {\
 DECLARE }
void f()

BODY
