
void f(void) {
printf();
}
