/* What happened in one wait: the part that explains why the card waited. */
#ifndef DURING_H
#define DURING_H

#include "inquiry.h"
#include "waits.h"

/* Prints who held the bus when the card asked and who was elected to follow, each grant to another
 * card and each election of one, the arbitrations that were refused, and the refusals of the card
 * itself. Requests and releases of other cards change nothing for this one and are left out. */
void print_during(const struct inquiry *inquiry, const struct wait *wait);

/* Prints "handed the bus at line 8" for the card that is elected at this line. */
void print_handing(const struct listing *listing, size_t line);

#endif
