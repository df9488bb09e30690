
void f(void) {
while (1) continue;
}
