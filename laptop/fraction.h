/* A fraction of two whole numbers, in full and as a decimal. */
#ifndef FRACTION_H
#define FRACTION_H

#include <stdint.h>

/* Room for the two texts of a fraction of a waiting report. */
enum { FRACTION_BYTES = 48 };

/* Writes "2/3". */
void write_fraction(char text[FRACTION_BYTES], uint64_t over, uint64_t under);

/* Writes "0.667": three decimals, rounded to the nearest, a half upwards. `under` is not 0; it has
 * at most 15 digits, so that no product passes 2^64. */
void write_decimal(char text[FRACTION_BYTES], uint64_t over, uint64_t under);

#endif
