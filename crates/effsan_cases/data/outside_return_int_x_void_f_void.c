void f(void) {

 return; }
int x;
void f(void) { }
