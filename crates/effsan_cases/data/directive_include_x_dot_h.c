
#include "x.h"