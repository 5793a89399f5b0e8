/* How racklap ends: its exit statuses, and the one line on standard error that goes with each. */
#ifndef SAY_H
#define SAY_H

#include <stdio.h>

/* NOT_AS_PROMISED is for a listing that breaks the promise of its rule, or shows a cloned card. */
enum { ALL_WELL = 0, BAD_INPUT = 1, WRONG_USAGE = 2, NOT_AS_PROMISED = 3 };

/* Says what is wrong with a file, a listing or a value, and ends with BAD_INPUT. */
_Noreturn void bad_input(const char *format, ...);

/* Says what is wrong with the command line, and ends with WRONG_USAGE. */
_Noreturn void wrong_usage(const char *format, ...);

/* Hands on all that was printed; ends with BAD_INPUT if it did not arrive. */
void finish_output(void);

/* Opens a file of its own for a drawing or a dump. Call finish_output before: where standard
 * output is closed, the new file would take its place and receive the report. */
FILE *open_output(const char *name);

void close_output(FILE *file, const char *name);

#endif
