int
int x;