int int;
int x;
#if
@