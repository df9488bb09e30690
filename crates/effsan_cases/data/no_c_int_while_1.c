
void f(void) {
int while = 1;
}
