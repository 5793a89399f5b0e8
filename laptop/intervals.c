#include "intervals.h"

unsigned interval_number(unsigned number)
{
    /* A run begins at each bit that differs from the one above it. */
    unsigned beginnings = number ^ number >> 1;
    unsigned runs = 0;
    for (; beginnings != 0; beginnings >>= 1) {
        runs += beginnings & 1;
    }
    return runs;
}
