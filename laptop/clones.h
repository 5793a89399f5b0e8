/* Cloned cards: more than one card showed the number that won. */
#ifndef CLONES_H
#define CLONES_H

#include <stdio.h>

#include "inquiry.h"

/* Prints a loud line for each number that more than one card showed: whether there was one. */
bool print_clones(FILE *file, const struct inquiry *inquiry);

/* The number that more than one card showed first, 0 if there is none. */
unsigned first_cloned(const struct listing *listing);

#endif
