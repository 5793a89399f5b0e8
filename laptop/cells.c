#include "cells.h"

#include <inttypes.h>

#include "shades.h"
#include "shapes.h"

static void draw_count(FILE *file, const struct map *map, double x, double y, uint64_t count)
{
    bool dark = shade_of(count, map->most.count) >= FIRST_DARK;
    if (count_fits(map, count)) {
        open_text(file, dark ? "count light" : "count", x + map->cell / 2,
                  y + map->cell / 2 + 0.36 * map->count);
        fprintf(file, "%" PRIu64, count);
        close_text(file);
    }
}

static void draw_cell(FILE *file, const struct map *map, size_t waiter, size_t granted)
{
    uint64_t count = left_waiting(map->tally, waiter, granted);
    double x = x_of(map, granted);
    double y = y_of(map, waiter);
    if (waiter == granted) {
        draw_box(file, "self", x, y, map->cell, map->cell);
    } else if (count > 0) {
        char class[16];
        snprintf(class, sizeof class, "shade%u", shade_of(count, map->most.count));
        draw_box(file, class, x, y, map->cell, map->cell);
        draw_count(file, map, x, y, count);
    }
}

static void draw_all_cells(FILE *file, const struct map *map)
{
    size_t cards = map->tally->cards;
    for (size_t i = 0; i < cards * cards; i++) {
        draw_cell(file, map, i / cards, i % cards);
    }
}

static void draw_grid(FILE *file, const struct map *map)
{
    size_t cards = map->tally->cards;
    for (size_t i = 0; i <= cards; i++) {
        draw_line(file, "grid", MAP_LEFT, y_of(map, i), x_of(map, cards), y_of(map, i));
        draw_line(file, "grid", x_of(map, i), map->top, x_of(map, i), y_of(map, cards));
    }
}

static void draw_most(FILE *file, const struct map *map)
{
    if (map->most.count > 0) {
        draw_box(file, "most", x_of(map, map->most.granted), y_of(map, map->most.waiter), map->cell,
                 map->cell);
    }
}

void draw_cells(FILE *file, const struct map *map)
{
    draw_all_cells(file, map);
    draw_grid(file, map);
    draw_most(file, map);
}
