struct S {
 int a;
}
#undef A
