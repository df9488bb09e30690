#include <x>
#define A A
A
'