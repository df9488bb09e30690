void f(void) {
switch (a) {
case 1:
default:
break; }
do
continue; while (b);
while (c)
; }