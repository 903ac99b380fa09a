/* host.c: a bench's text on a host. */
#include "bench.h"

#include <stdio.h>

void put(const char *text)
{
    fputs(text, stdout);
}
