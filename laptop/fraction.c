#include "fraction.h"

#include <inttypes.h>
#include <stdio.h>

enum { THOUSANDTHS = 1000 };

void write_fraction(char text[FRACTION_BYTES], uint64_t over, uint64_t under)
{
    snprintf(text, FRACTION_BYTES, "%" PRIu64 "/%" PRIu64, over, under);
}

/* Only whole numbers are used. The whole part is split off first; of what is left, which is less
 * than `under`, the thousandths are 1000 * rest / under to the nearest, (2000 * rest + under) /
 * (2 * under) rounded down. A double has 53 bits and would round a quotient of 15 digits twice. */
void write_decimal(char text[FRACTION_BYTES], uint64_t over, uint64_t under)
{
    uint64_t rest = over % under;
    uint64_t parts = (2 * THOUSANDTHS * rest + under) / (2 * under);
    uint64_t whole = over / under + parts / THOUSANDTHS;
    snprintf(text, FRACTION_BYTES, "%" PRIu64 ".%03" PRIu64, whole, parts % THOUSANDTHS);
}
