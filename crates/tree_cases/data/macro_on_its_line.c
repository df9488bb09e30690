#define N 3
N