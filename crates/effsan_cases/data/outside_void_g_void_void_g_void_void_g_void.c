void g(void) { }
void g(void) { }
void g(void) { }