
void f(void) {
goto x;
}
