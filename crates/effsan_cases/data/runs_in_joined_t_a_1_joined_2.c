void f(void) { in\
t a = 1\
2; }