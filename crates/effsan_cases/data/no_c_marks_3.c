
void f(void) {
{ }
}
}
