
void f(void) {
int free = 1;
}
