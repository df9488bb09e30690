
void f(void) {
}
}
