/* Memory between two pages that nobody may touch.
 *
 * The library is not built with AddressSanitizer, which therefore doesn't see the library's own
 * loads and stores. A page without rights stops an overrun by any code. */
#ifndef FENCE_H
#define FENCE_H

#include <stdbool.h>
#include <stddef.h>
#include <stdint.h>

enum side { AT_THE_START, AT_THE_END };

struct fence {
    uint8_t *bytes; /* what is lent: it touches the forbidden page on its side */
    size_t length;
    uint8_t *room; /* everything between the two forbidden pages */
};

enum {
    ROOM = 4 * 4096,
    UNTOUCHED = 0xA5 /* fills the room before anything is lent */
};

struct fence fence_open(size_t length, enum side side);

/* Copies the content in, after which not even the lent bytes may be written. */
struct fence fence_input(const uint8_t *content, size_t length, enum side side);

/* Are the lent bytes from `from` on, and all bytes around them, as they were? */
bool fence_untouched_from(const struct fence *fence, size_t from);

void fence_close(struct fence *fence);

#endif
