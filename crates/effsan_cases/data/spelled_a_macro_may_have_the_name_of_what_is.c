#define printf free
#undef printf
#define g f
void g(void) { printf("%d\n", 12); }