/* The waits of one card: from a request that was done to its grant. Here and below an election is
 * a grant too, made early: the wait is over when the card is elected. */
#ifndef WAITS_H
#define WAITS_H

#include "listing.h"
#include "table.h"

struct wait {
    size_t asked;   /* the line of the request */
    size_t granted; /* the line of the grant, 0 if the wait is not over at the end */
    size_t until;   /* the last line of the wait: that of the grant, or of the listing */
    size_t others;  /* grants to other cards in between */
};

/* Whether the event grants the bus to a card other than this one. */
bool is_grant_to_other(const struct event *event, unsigned number);

/* Moves on to the card's next wait; begin with a wait of zeros. False if there is none. */
bool next_wait(const struct listing *listing, unsigned number, struct wait *wait);

/* Of all waits of the card that with the most grants to others, the first of several; zeros if
 * the card never waits. */
struct wait longest_wait(const struct listing *listing, unsigned number);

/* Adds the grants to others in a wait to the sums by number. */
void add_others(const struct listing *listing, const struct wait *wait, size_t sums[NUMBERS]);

#endif
