
void f(void) {
break;
}
