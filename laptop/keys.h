/* The keys of a heat map: what its colours mean. */
#ifndef KEYS_H
#define KEYS_H

#include "map.h"

/* Draws them below the cells. A shade that no count has gets no key, as where the greatest count is
 * below the number of shades. */
void draw_keys(FILE *file, const struct map *map);

#endif
