void m(void) { }
void ma\
in(void) { printf("%d\n", 4); }