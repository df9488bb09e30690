
void f(void) {
if (0) { } else ;
}
