
void f(void) {
int _Bool = 1;
}
