int counter;
void add(void) { int i; for (i = 0; i < 1000; i++) atomic_fetch_add(&counter, 1); }
void plain(void) { counter = counter + 1; }
void show(void) { printf("%d\n", counter); }