#include "layout.h"

#include "waits.h"

enum {
    MOST_COLUMNS = 40,
    LEAST_COLUMNS = 8,
    ROWS_TOGETHER = 290, /* height that the rows of a band share */
    MOST_ROW = 52,
    LEAST_ROW = 18,
    LEAD = 4, /* lines drawn before the longest wait */
};

/* A listing that is too long to be drawn whole is drawn from its longest wait on. */
static size_t first_drawn(const struct inquiry *inquiry)
{
    size_t lines = inquiry->listing.lines;
    if (lines <= MOST_DRAWN) {
        return 1;
    }
    size_t asked = longest_wait(&inquiry->listing, inquiry->number).asked;
    size_t first = asked > LEAD ? asked - LEAD : 1;
    size_t latest = lines - MOST_DRAWN + 1;
    return first < latest ? first : latest;
}

static size_t parts(size_t whole, size_t part)
{
    return (whole + part - 1) / part;
}

static void lay_columns(struct layout *layout, size_t lines)
{
    size_t drawn = lines < MOST_DRAWN ? lines : MOST_DRAWN;
    layout->last = layout->first + drawn - 1;
    layout->bands = drawn == 0 ? 1 : parts(drawn, MOST_COLUMNS);
    layout->columns = parts(drawn, layout->bands);
    if (layout->columns < LEAST_COLUMNS) {
        layout->columns = LEAST_COLUMNS;
    }
    layout->column = (double)(WIDTH - LABELS - MARGIN) / (double)layout->columns;
}

static void lay_rows(struct layout *layout, const struct table *table)
{
    for (unsigned slot = 1; slot < SLOTS; slot++) {
        if (table->number_in[slot] != 0) {
            layout->row_of[table->number_in[slot]] = layout->rows++;
        }
    }
    double share = (double)ROWS_TOGETHER / (double)layout->rows;
    layout->row = share > MOST_ROW ? MOST_ROW : share < LEAST_ROW ? LEAST_ROW : share;
}

struct layout lay_out(const struct inquiry *inquiry)
{
    struct layout layout = {.first = first_drawn(inquiry)};
    lay_columns(&layout, inquiry->listing.lines);
    lay_rows(&layout, &inquiry->table);
    return layout;
}

size_t first_in_band(const struct layout *layout, size_t band)
{
    return layout->first + band * layout->columns;
}

double x_in_band(const struct layout *layout, size_t band, double line)
{
    return LABELS + (line - (double)first_in_band(layout, band) + 0.5) * layout->column;
}

double y_in_band(const struct layout *layout, size_t band, size_t row)
{
    double band_height = BAND_HEAD + (double)layout->rows * layout->row + BAND_GAP;
    return HEAD + (double)band * band_height + BAND_HEAD + (double)row * layout->row;
}

double picture_height(const struct layout *layout)
{
    return y_in_band(layout, layout->bands - 1, layout->rows) + LEGEND;
}
