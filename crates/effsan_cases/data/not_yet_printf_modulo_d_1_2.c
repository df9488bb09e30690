
void f(void) {
printf("%d\n\n", 1);
}
