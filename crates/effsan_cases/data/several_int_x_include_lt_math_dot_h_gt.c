int x;

#include <math.h>
