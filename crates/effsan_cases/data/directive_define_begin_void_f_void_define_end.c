#define BEGIN void f(void) {
#define END }
#define SAY(x) x
