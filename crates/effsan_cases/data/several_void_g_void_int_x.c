void g(void) { }

int x;