#include "map.h"

#include "fields.h"
#include "layout.h"

enum {
    MOST_CELL = 60,
    LABEL_HEIGHT = 10, /* cells smaller than this have their labels in two lanes */
    LABEL_WIDTH = 14,  /* columns narrower than this have theirs upright */
    LEAST_LABEL = 10,  /* font sizes */
    MOST_LABEL = 15,
    LEAST_COUNT = 8,
    MOST_COUNT = 16,
};

/* How wide so many digits are in a font of this size, at the widest of the usual fonts. */
static double text_width(unsigned digits, double size)
{
    return 0.64 * size * digits;
}

static double within(double least, double size, double most)
{
    return size < least ? least : size > most ? most : size;
}

struct map lay_map(const struct tally *tally)
{
    struct map map = {.tally = tally, .most = greatest_count(tally)};
    double share = (double)(WIDTH - MAP_LEFT - MARGIN) / (double)tally->cards;
    map.cell = share > MOST_CELL ? MOST_CELL : share;
    map.lanes = map.cell < LABEL_HEIGHT ? 2 : 1;
    map.upright = map.cell < LABEL_WIDTH;
    map.top = MAP_CAPTION + 8 + (double)(map.lanes * LANE);
    map.label = within(LEAST_LABEL, map.cell / 2, MOST_LABEL);
    /* The size at which the greatest count fits its cell, if it can be read so small. */
    double fitting = (map.cell - 2) / text_width(digits(map.most.count), 1);
    map.count = within(LEAST_COUNT, fitting, MOST_COUNT);
    return map;
}

double x_of(const struct map *map, size_t granted)
{
    return MAP_LEFT + (double)granted * map->cell;
}

double y_of(const struct map *map, size_t waiter)
{
    return map->top + (double)waiter * map->cell;
}

bool count_fits(const struct map *map, uint64_t count)
{
    return text_width(digits(count), map->count) + 1.5 <= map->cell;
}
