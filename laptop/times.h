/* How often, in words. */
#ifndef TIMES_H
#define TIMES_H

#include <stdio.h>

/* Prints "once", "twice" or "3 times". */
void print_times(FILE *file, size_t times);

#endif
