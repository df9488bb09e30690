
void f(void) {
int if = 1;
}
