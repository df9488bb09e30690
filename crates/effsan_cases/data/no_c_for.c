
void f(void) {
for (;;;) ;
}
