/* The interval-number of document 002. */
#ifndef INTERVALS_H
#define INTERVALS_H

/* How many runs of equal bits a number has in binary, leading zeros left out: 0 has none. */
unsigned interval_number(unsigned number);

#endif
