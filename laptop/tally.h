/* The waiting report that rackreport prints: the figures of each card, and who waited for whom. */
#ifndef TALLY_H
#define TALLY_H

#include <stdbool.h>
#include <stddef.h>
#include <stdint.h>

enum {
    MOST_CARDS = 63,
    MOST_EVENTS = 65535,
    MALFORMED = 18, /* numbers that can end the counting */
    COUNTED_FULL = 31,
};

struct card {
    unsigned slot;
    unsigned number;
    uint64_t grants;
    uint64_t waited;  /* the sum of its waits: over grants it is the mean wait */
    uint64_t squares; /* the sum of its squared waits */
    uint64_t spread;  /* over grants squared it is the variance of its waits */
};

struct tally {
    bool table_refused;
    unsigned ending; /* the number that ended the counting, or that refused the table; 0 if none */
    uint64_t events; /* done, that were counted */
    size_t cards;
    struct card card[MOST_CARDS]; /* by rising number */
    size_t by_slot[MOST_CARDS];   /* the indices of the cards by rising slot */
    bool has_square;
    uint64_t square[MOST_CARDS][MOST_CARDS]; /* row the waiter, column the granted card */
};

/* Reads a report to its end, from the file or, without a name, from standard input. Ends with bad
 * input, naming the line, where a line is none or its figures contradict each other. */
struct tally read_tally(const char *name);

/* The card that stands at this place by rising slot. */
const struct card *card_by_slot(const struct tally *tally, size_t place);

/* How many grants to one card left another waiting, by their places in the order of the slots. */
uint64_t left_waiting(const struct tally *tally, size_t waiter, size_t granted);

#endif
