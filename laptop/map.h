/* Where the cells of a heat map stand, and how large its letters are. */
#ifndef MAP_H
#define MAP_H

#include "square.h"

enum {
    MAP_LEFT = 58,     /* of the cells: room for the name of the rows and two lanes of labels */
    MAP_CAPTION = 126, /* the foot of the columns' name */
    MAP_KEYS = 124,    /* height below the cells */
    LANE = 15,         /* of labels */
};

struct map {
    const struct tally *tally;
    struct greatest most;
    double cell; /* width and height */
    double top;
    size_t lanes; /* of labels, beside the cells and above them */
    bool upright; /* the labels above */
    double label; /* font sizes */
    double count;
};

struct map lay_map(const struct tally *tally);

/* The left and the upper edge of a cell, by its place in the order of the slots. */
double x_of(const struct map *map, size_t granted);
double y_of(const struct map *map, size_t waiter);

/* Whether the cell has room for its count. */
bool count_fits(const struct map *map, uint64_t count);

#endif
