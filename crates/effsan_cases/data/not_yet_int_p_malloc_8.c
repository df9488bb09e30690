
void f(void) {
int **p = malloc(8);
}
