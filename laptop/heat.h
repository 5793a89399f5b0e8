/* The square of a waiting report as a picture: the more often one slot waited for another, the
 * darker the cell where the row of the one meets the column of the other. */
#ifndef HEAT_H
#define HEAT_H

#include "tally.h"

void write_heat(const struct tally *tally, const char *name);

#endif
