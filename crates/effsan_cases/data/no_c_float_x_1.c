
void f(void) {
float x = 1;
}
