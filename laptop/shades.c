#include "shades.h"

unsigned shade_of(uint64_t count, uint64_t most)
{
    return (unsigned)((count * SHADES + most - 1) / most);
}

uint64_t last_of_shade(unsigned shade, uint64_t most)
{
    return shade * most / SHADES;
}

uint64_t first_of_shade(unsigned shade, uint64_t most)
{
    return last_of_shade(shade - 1, most) + 1;
}
