/* The bars and marks of the picture, drawn over its bands. */
#ifndef BARS_H
#define BARS_H

#include <stdio.h>

#include "layout.h"

/* A shade over all rows while the asked card waits; drawn first, as it lies under all else. */
void draw_shades(FILE *file, const struct inquiry *inquiry, const struct layout *layout);

/* A bar for each wait, each hold, and between them for the time that a card is elected; then a mark
 * for each grant and each election. The marks of other cards while the asked card waits carry their
 * count. */
void draw_bars(FILE *file, const struct inquiry *inquiry, const struct layout *layout);

/* Whether a mark has room for a count. */
bool marks_are_counted(const struct layout *layout);

/* The mark where another card wins, with its count unless that is 0. */
void draw_mark(FILE *file, double x, double y, double radius, size_t count);

/* The mark where the asked card wins. */
void draw_own_mark(FILE *file, double x, double y, double radius);

#endif
