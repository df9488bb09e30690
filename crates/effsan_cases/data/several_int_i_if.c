void f(void) {
 int i = ;
}
#if
