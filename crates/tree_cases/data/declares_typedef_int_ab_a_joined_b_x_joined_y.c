typedef int AB; A\
B x\
y;