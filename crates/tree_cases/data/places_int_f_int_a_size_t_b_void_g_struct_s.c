int f(int a,
 size_t *b);
void
g(struct S, enum E) {
}