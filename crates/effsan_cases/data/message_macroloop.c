#define LIMIT LIMIT + 1
void f(void) {
    int x = LIMIT; }
