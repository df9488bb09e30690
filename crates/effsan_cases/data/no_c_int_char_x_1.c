
void f(void) {
int char x = 1;
}
