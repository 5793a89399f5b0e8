/* A card table as it stands on file: its bytes, not judged yet. */
#ifndef TABFILE_H
#define TABFILE_H

#include <stddef.h>
#include <stdint.h>

/* One byte more than the greatest table, so that a greater file is seen to be greater. */
enum { TABFILE_BYTES = 8192 + 1 };

struct tabfile {
    uint8_t bytes[TABFILE_BYTES];
    size_t length;
};

/* Ends with bad input if the file cannot be read. */
struct tabfile read_tabfile(const char *name);

#endif
