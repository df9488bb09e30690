
void f(void) {
while (1) int i = 1;
}
