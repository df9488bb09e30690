struct S {
 int a,
 b;
};
enum {
 A,
 B = 1 };