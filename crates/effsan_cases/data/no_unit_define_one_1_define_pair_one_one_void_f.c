#define ONE 1
#define PAIR ONE ONE

void f(void) { int x =

 PAIR
; }