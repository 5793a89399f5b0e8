/* How many stages a settling can take at most. */
#ifndef BOUNDS_H
#define BOUNDS_H

#include "settling.h"

/* Prints the bound by the runs of the greatest number, or for an empty list, which has none, its
 * own; then the bound by the lines. */
void print_bounds(const struct settling *settling);

#endif
