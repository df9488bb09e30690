
void f(void) {
puts("%d\n", 1);
}
