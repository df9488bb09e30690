
void f(void) {
int *free = malloc(4);
}
