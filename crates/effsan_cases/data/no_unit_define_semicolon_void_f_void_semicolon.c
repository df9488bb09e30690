#define SEMICOLON ;
void f(void) { }
SEMICOLON