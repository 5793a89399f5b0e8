/* A report, line by line, with the number of the line for whoever has to complain. */
#ifndef SOURCE_H
#define SOURCE_H

#include <stdbool.h>
#include <stdio.h>

/* The longest line is a row of the square of 63 cards. One byte more shows a longer one. */
enum { KEPT_BYTES = 2 + 6 * 63 + 1 + 1 };

struct source {
    FILE *stream;
    const char *name; /* null for standard input */
    size_t line;      /* the number of the line that was read last, from 1 */
    size_t length;    /* of that line with its newline, 0 at the end */
    char bytes[KEPT_BYTES + 1];
};

/* Opens the file, or standard input if the name is null. Ends with bad input if it cannot. */
struct source open_source(const char *name);

/* Reads the next line, of which the first KEPT_BYTES are kept. Ends with bad input if it cannot. */
void next_line(struct source *source);

void close_source(struct source *source);

/* Ends with bad input: the line that was read last is none, or is missing. */
_Noreturn void no_line(const struct source *source, const char *expected);

#endif
