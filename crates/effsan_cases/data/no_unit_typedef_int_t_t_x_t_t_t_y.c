typedef int T;
T x;
T T;
T y;