#define start main
void start(void) { printf("%d\n", 5); }