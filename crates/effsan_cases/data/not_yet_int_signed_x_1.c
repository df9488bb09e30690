
void f(void) {
int signed x = 1;
}
