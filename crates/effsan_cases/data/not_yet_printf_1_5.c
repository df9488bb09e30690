
void f(void) {
printf("", 1);
}
