
void f(void) {
break
}
