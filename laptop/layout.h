/* Where things stand in the picture. One unit is one pixel on a phone 400 pixels wide, so the
 * picture grows downwards only: lines that do not fit side by side go on in a further band. */
#ifndef LAYOUT_H
#define LAYOUT_H

#include "inquiry.h"

enum {
    WIDTH = 400,
    MARGIN = 10,
    LABELS = 92,      /* width of the labels left of a band */
    HEAD = 118,       /* height above the first band */
    BAND_HEAD = 24,   /* height of a band's line numbers */
    BAND_GAP = 16,    /* below a band */
    LEGEND = 108,     /* height below the last band */
    MOST_DRAWN = 400, /* lines */
};

struct layout {
    size_t first; /* line drawn */
    size_t last;
    size_t columns; /* lines side by side in a band */
    size_t bands;
    size_t rows;
    double column; /* width */
    double row;    /* height */
    size_t row_of[NUMBERS];
};

struct layout lay_out(const struct inquiry *inquiry);

/* The first line of a band, and the middle of a line in it. A half line is the edge of a column. */
size_t first_in_band(const struct layout *layout, size_t band);
double x_in_band(const struct layout *layout, size_t band, double line);

/* The upper edge of a row in a band; row 0 is the highest, and `rows` gives the lower end. */
double y_in_band(const struct layout *layout, size_t band, size_t row);

double picture_height(const struct layout *layout);

#endif
