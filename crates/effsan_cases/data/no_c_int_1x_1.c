
void f(void) {
int 1x = 1;
}
