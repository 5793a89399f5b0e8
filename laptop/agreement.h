/* Whether the figures of a waiting report agree with each other. Each function ends with bad input,
 * naming the line, where they do not: such a report was damaged on its way. */
#ifndef AGREEMENT_H
#define AGREEMENT_H

#include "tally.h"

/* The card's number rises above those before it, and its slot is its own. */
void check_place(const struct tally *tally, const struct card *card, size_t line);

/* The fractions, over these numbers, can be the mean and the variance of so many waits. */
void check_fractions(const struct card *card, uint64_t mean_over, uint64_t spread_over,
                     size_t line);

/* The grants of the cards so far, and the waits of the last one, are within the events counted. */
void check_events(const struct tally *tally, size_t line);

/* The row fits the grants and the waits of the cards. */
void check_row(const struct tally *tally, size_t row, size_t line);

#endif
