
void f(void) {
int i = 0; while (i< =3) { }
}
