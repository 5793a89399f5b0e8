/* Counts tests. */
#ifndef TALLY_H
#define TALLY_H

#include <stdbool.h>

void tally(bool good, const char *name);

/* Prints the last line and gives the exit status. */
int tally_end(void);

#endif
