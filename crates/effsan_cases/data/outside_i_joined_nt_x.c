i\
nt x;