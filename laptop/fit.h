/* Whether a listing can come from a rack with this table, started fresh. */
#ifndef FIT_H
#define FIT_H

#include "listing.h"
#include "table.h"

/* Ends with bad input, naming the line, at an event that this rack cannot have done, or cannot have
 * refused with 13. From here on every number and winner of an event that was done is in the table.
 */
void check_fit(const struct listing *listing, const struct table *table);

#endif
