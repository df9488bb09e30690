void g(void) { }
void h(void) { }
void h(void) { }