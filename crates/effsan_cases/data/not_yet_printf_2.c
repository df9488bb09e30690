
void f(void) {
printf("%d\n");
}
