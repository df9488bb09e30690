
void f(void) {
printf("%i\n", 1);
}
