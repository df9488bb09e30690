
void f(void) {
int (*g)(int a, char) = 1;
}
