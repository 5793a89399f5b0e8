/* The shades of a heat map: the greater the count, the darker. */
#ifndef SHADES_H
#define SHADES_H

#include <stdint.h>

enum { SHADES = 6, FIRST_DARK = 5 }; /* 1 to 6; white text stands out from the dark ones */

/* The shade of a count of 1 to `most`: each has an equal part of them, as far as counts go. */
unsigned shade_of(uint64_t count, uint64_t most);

/* The first and the last count of a shade; none has it where the first is the greater. */
uint64_t first_of_shade(unsigned shade, uint64_t most);
uint64_t last_of_shade(unsigned shade, uint64_t most);

#endif
