#include <stdio.h>
#include <Stdio.h>
