else
#define while
