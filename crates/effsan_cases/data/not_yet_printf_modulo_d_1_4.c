
void f(void) {
printf("%d\n\0", 1);
}
