void g(void) { }
int