/* The square of a waiting report in words: who waits for whom. */
#ifndef SQUARE_H
#define SQUARE_H

#include <stdio.h>

#include "tally.h"

/* The greatest count of the square, the first of several by slots. */
struct greatest {
    uint64_t count;
    size_t waiter; /* places in the order of the slots */
    size_t granted;
    size_t as_many; /* further counts that are as great */
};

struct greatest greatest_count(const struct tally *tally);

/* Prints in a sentence who waited most for whom. */
void print_greatest(FILE *file, const struct tally *tally, const struct greatest *greatest);

/* Prints in a sentence how many more pairs there are with that count. */
void print_as_many(FILE *file, const struct greatest *greatest);

/* Prints the square by slots, in blocks of columns that fit a terminal. */
void print_square(const struct tally *tally);

#endif
