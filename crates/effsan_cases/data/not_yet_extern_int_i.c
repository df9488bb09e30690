
void f(void) {
extern int i;
}
