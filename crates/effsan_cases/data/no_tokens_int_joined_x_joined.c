int\
 x;
\
#$