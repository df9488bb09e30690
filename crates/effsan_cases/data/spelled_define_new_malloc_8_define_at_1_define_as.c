#define NEW malloc(8)
#define AT [1]
#define AS (char *)
void f(void) { int *p = NEW; p AT = 258; char *c = AS p; printf("%d\n", c[4]); free(p); }