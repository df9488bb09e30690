int
*p
=
&x;