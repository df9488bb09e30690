void f(void) {
if (a)
  b;
else {
  return
  1; }
for (int i;
 ;
 ++i)
 ;
}