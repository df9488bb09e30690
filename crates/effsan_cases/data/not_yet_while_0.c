
void f(void) {
while (0) ;
}
