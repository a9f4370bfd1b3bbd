/* calls FILE: the random calls of wrong.c, drawn from a file's octets in place of rand, for bench/fuzz. It ends where the octets do. */
#include <limits.h>
#include <stdio.h>
#include <stdlib.h>

static int drawn(void);
#define rand drawn
#define main wrong
#include "wrong.c"
#undef main

static FILE *octets;

static int drawn(void)
{
    const int low = getc(octets), high = getc(octets);
    if (high == EOF)
        exit(0);
    return low + 256 * high;
}

int main(int argc, char **argv)
{
    octets = argc == 2 ? fopen(argv[1], "rb") : NULL;
    if (!octets)
        return 2;
    random_calls(LONG_MAX);
    return 0;
}
