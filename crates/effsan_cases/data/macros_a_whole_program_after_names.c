#define BEGIN void f(void) {
#define SAY printf("%d\n",
#define DONE );
#define END }
BEGIN SAY 7 DONE END