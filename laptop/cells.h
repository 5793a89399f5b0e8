/* The cells of a heat map. */
#ifndef CELLS_H
#define CELLS_H

#include "map.h"

/* Draws a cell in its shade for each count, with the count where it fits, and the grid; last a
 * frame around the greatest count, the first of several. */
void draw_cells(FILE *file, const struct map *map);

#endif
