/* One settling of the arbitration lines, run by the proved entry. */
#ifndef SETTLING_H
#define SETTLING_H

#include <stddef.h>
#include <stdint.h>

/* One number more than compete at most, so that a longer list is seen to be longer. */
enum { MOST_LINES = 12, KEPT_NUMBERS = 64 + 1, ENTRY_BYTES = 2 };

struct settling {
    uint32_t m;
    uint32_t start; /* what the lines carry at stage 0 */
    size_t count; /* competing numbers */
    uint32_t t;
    uint32_t matches; /* competing numbers that equal the settled lines */
    uint8_t numbers[KEPT_NUMBERS * ENTRY_BYTES]; /* two bytes each, low byte first */
    uint8_t stages[(MOST_LINES + 1) * ENTRY_BYTES];
};

/* Settles m lines from this start for `count` numbers written in decimal. Ends with wrong usage if
 * one is not a number, with bad input if the entry refuses. */
struct settling settle(uint32_t m, uint32_t start, size_t count, char **numbers);

/* The number of the competitor with this index, 0 to count - 1. */
unsigned competitor(const struct settling *settling, size_t index);

/* The greatest of the competing numbers, 0 if there are none. */
unsigned greatest_competitor(const struct settling *settling);

/* The lines after a stage, 0 to t. */
unsigned lines_after(const struct settling *settling, uint32_t stage);

/* The bits of its own number that a competitor does not apply when it sees these lines. */
unsigned withdrawn(unsigned own, unsigned lines);

#endif
