/* The sum of squares,
   kept in an object. */
#include <stdio.h>
#include <stdlib.h>
#include <stdint.h>
#define FORMAT "%d" "\n"
#define LAST 05
#define STEP i = i + 0x1;
#define EACH while (i <= LAST) // no more
#define SHOW printf(FORMAT,

void unused() { }

void f(void)
{
    int *squares = malloc(030);
    int i = 00;
    EACH { squares[i] = i * i; STEP }
    int sum = 0;
    i = 0;
    EACH {
        if (squares[i] == 0x10)
            SHOW 0 - squares[i]);
        else
            sum = sum + squares[i];
        STEP
    }
    SHOW sum); { int sum = sum + 1; SHOW sum); }
    char *bytes = (char *)squares;
    printf("%d\x0a", bytes[02\
4]);
    free(squares);
    squares = (int *)bytes;
}
