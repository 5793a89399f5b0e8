/* What stands twice in a card table. */
#ifndef TWICE_H
#define TWICE_H

#include "tabfile.h"

/* The refusal of a table in which a number or slot is out of range or stands twice. */
enum { USED_TWICE = 7 };

/* Prints a line for each number and each slot that more than one card has. The file must have been
 * refused with USED_TWICE: then nothing is wrong with its layout. */
void print_twice(const struct tabfile *file);

#endif
