#include "keys.h"

#include <inttypes.h>

#include "layout.h"
#include "shades.h"
#include "shapes.h"

enum { KEY_WIDTH = 128, KEY_HEIGHT = 24 };

/* Three keys stand side by side, the first of them at place 0. */
static void draw_key(FILE *file, size_t place, double top, const char *class, const char *words)
{
    double x = MARGIN + (double)(place % 3 * KEY_WIDTH);
    double y = top + (double)(place / 3 * KEY_HEIGHT);
    draw_box(file, class, x + 1, y + 1, 22, 14);
    draw_words(file, "key", x + 29, y + 12, words);
}

static void draw_shade_key(FILE *file, size_t place, double top, unsigned shade, uint64_t most)
{
    uint64_t first = first_of_shade(shade, most);
    uint64_t last = last_of_shade(shade, most);
    char class[16];
    char words[48];
    snprintf(class, sizeof class, "shade%u", shade);
    if (first == last) {
        snprintf(words, sizeof words, "%" PRIu64, first);
    } else {
        snprintf(words, sizeof words, "%" PRIu64 " to %" PRIu64, first, last);
    }
    draw_key(file, place, top, class, words);
}

void draw_keys(FILE *file, const struct map *map)
{
    double top = y_of(map, map->tally->cards) + 28;
    draw_words(file, "note", MARGIN, top, "Grants to the column that left the row waiting:");
    top += 12;
    size_t place = 0;
    draw_key(file, place++, top, "none", "0");
    draw_key(file, place++, top, "self", "the slot itself");
    draw_key(file, place++, top, "most", "the most");
    for (unsigned shade = 1; shade <= SHADES; shade++) {
        if (first_of_shade(shade, map->most.count) <= last_of_shade(shade, map->most.count)) {
            draw_shade_key(file, place++, top, shade, map->most.count);
        }
    }
}
