
void f(void) {
int i = 1 # 2;
}
