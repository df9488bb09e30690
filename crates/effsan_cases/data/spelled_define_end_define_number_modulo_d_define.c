#define END "\n"
#define NUMBER "%d"
#define F NUMBER END
void f(void) { printf(F, 9); printf(NUMBER END, 10); printf(NUMBER "\n", 11); }