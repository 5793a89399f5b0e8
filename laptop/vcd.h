/* A settling as a value change dump, for GTKWave. */
#ifndef VCD_H
#define VCD_H

#include "settling.h"

/* One time unit a stage, one wire a line; at time 0 the start is on the lines. */
void write_vcd(const struct settling *settling, const char *name);

#endif
