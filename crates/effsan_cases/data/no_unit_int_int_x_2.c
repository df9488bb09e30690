int int
x;