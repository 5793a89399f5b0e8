/* The two forms in which racklap why answers. Both return whether something is wrong with the rack:
 * a card has a clone, or the promise was broken. */
#ifndef REPORT_H
#define REPORT_H

#include "inquiry.h"

/* For the technician: each wait with what happened in it, and the answer. */
bool print_report(const struct inquiry *inquiry);

/* For programs: one row a wait, and a last row with the longest. */
bool print_rows(const struct inquiry *inquiry);

#endif
