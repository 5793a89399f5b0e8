#include "bars.h"

#include "bus.h"
#include "shapes.h"
#include "waits.h"

/* Each row has two lanes, for a card that holds the bus may wait again, or be elected again. None
 * waits while it is elected. Parts of the row's height. */
struct lane {
    const char *class;
    double top;
    double height;
};
static const struct lane holds = {"holds", 0.12, 0.44};
static const struct lane waits = {"waits", 0.62, 0.24};
static const struct lane elected = {"elected", 0.62, 0.24};

enum { MOST_RADIUS = 9, LEAST_COUNTED_RADIUS = 7 };

/* Draws the stretch from one line to another in every band that it touches, `below` the upper edge
 * of the band's first row. */
static void draw_stretch(FILE *file, const struct layout *layout, const char *class, double from,
                         double to, double below, double height)
{
    for (size_t band = 0; band < layout->bands; band++) {
        double left = (double)first_in_band(layout, band) - 0.5;
        double right = left + (double)layout->columns;
        double start = from > left ? from : left;
        double end = to < right ? to : right;
        if (start < end) {
            double x = x_in_band(layout, band, start);
            draw_box(file, class, x, y_in_band(layout, band, 0) + below,
                     x_in_band(layout, band, end) - x, height);
        }
    }
}

static void draw_bar(FILE *file, const struct layout *layout, const struct lane *lane, size_t row,
                     double from, double to)
{
    draw_stretch(file, layout, lane->class, from, to, ((double)row + lane->top) * layout->row,
                 lane->height * layout->row);
}

/* Where a stretch ends that the line `end` ends, or that is not over (0) or ends undrawn. */
static double drawn_end(const struct layout *layout, size_t end)
{
    return end == 0 || end > layout->last ? (double)layout->last + 0.5 : (double)end;
}

void draw_shades(FILE *file, const struct inquiry *inquiry, const struct layout *layout)
{
    struct wait wait = {.asked = 0};
    while (next_wait(&inquiry->listing, inquiry->number, &wait) && wait.asked <= layout->last) {
        draw_stretch(file, layout, "shade", (double)wait.asked, drawn_end(layout, wait.granted), 0,
                     (double)layout->rows * layout->row);
    }
}

static void draw_waits(FILE *file, const struct inquiry *inquiry, const struct layout *layout)
{
    for (unsigned number = 1; number < NUMBERS; number++) {
        struct wait wait = {.asked = 0};
        while (has_number(&inquiry->table, number) &&
               next_wait(&inquiry->listing, number, &wait) && wait.asked <= layout->last) {
            draw_bar(file, layout, &waits, layout->row_of[number], (double)wait.asked,
                     drawn_end(layout, wait.granted));
        }
    }
}

/* What the card that wins at this line has won: the bus, or first the place behind its holder. */
static void draw_turn(FILE *file, const struct inquiry *inquiry, const struct layout *layout,
                      size_t line)
{
    const struct listing *listing = &inquiry->listing;
    size_t row = layout->row_of[event_at(listing, line)->winner];
    size_t from = held_from(listing, line);
    if (is_election(listing, line)) {
        draw_bar(file, layout, &elected, row, (double)line, drawn_end(layout, from));
    }
    if (from != 0) {
        draw_bar(file, layout, &holds, row, (double)from,
                 drawn_end(layout, release_after(listing, from)));
    }
}

static void draw_turns(FILE *file, const struct inquiry *inquiry, const struct layout *layout)
{
    for (size_t line = 1; line <= layout->last; line++) {
        if (event_at(&inquiry->listing, line)->winner != 0) {
            draw_turn(file, inquiry, layout, line);
        }
    }
}

static double mark_radius(const struct layout *layout)
{
    double lane = holds.height * layout->row / 2;
    double room = lane < layout->column / 2 ? lane : layout->column / 2;
    return room < MOST_RADIUS ? room : MOST_RADIUS;
}

bool marks_are_counted(const struct layout *layout)
{
    return mark_radius(layout) >= LEAST_COUNTED_RADIUS;
}

void draw_mark(FILE *file, double x, double y, double radius, size_t count)
{
    draw_circle(file, "grant", x, y, radius);
    if (count != 0) {
        open_text(file, "count", x, y + 4.2);
        fprintf(file, "%zu", count);
        close_text(file);
    }
}

void draw_own_mark(FILE *file, double x, double y, double radius)
{
    double left = x - 0.5 * radius;
    double foot = x - 0.1 * radius;
    double right = x + 0.5 * radius;
    double rise = 0.45 * radius;
    draw_circle(file, "own", x, y, radius);
    if (radius >= LEAST_COUNTED_RADIUS) {
        draw_line(file, "tick", left, y, foot, y + rise);
        draw_line(file, "tick", foot, y + rise, right, y - rise);
    }
}

static void draw_grant(FILE *file, const struct inquiry *inquiry, const struct layout *layout,
                       size_t line, size_t count)
{
    unsigned winner = event_at(&inquiry->listing, line)->winner;
    size_t band = (line - layout->first) / layout->columns;
    double x = x_in_band(layout, band, (double)line);
    double y = y_in_band(layout, band, layout->row_of[winner]) +
               (holds.top + holds.height / 2) * layout->row;
    if (winner == inquiry->number) {
        draw_own_mark(file, x, y, mark_radius(layout));
    } else {
        draw_mark(file, x, y, mark_radius(layout), marks_are_counted(layout) ? count : 0);
    }
}

static void draw_grants(FILE *file, const struct inquiry *inquiry, const struct layout *layout)
{
    bool waiting = false;
    size_t others = 0; /* granted in the asked card's wait so far */
    for (size_t line = 1; line <= layout->last; line++) {
        const struct event *event = event_at(&inquiry->listing, line);
        if (is_done(event, 'Q', inquiry->number)) {
            waiting = true;
            others = 0;
        } else if (event->winner == inquiry->number) {
            waiting = false;
        } else if (is_grant_to_other(event, inquiry->number)) {
            others++;
        }
        if (event->winner != 0 && line >= layout->first) {
            draw_grant(file, inquiry, layout, line, waiting ? others : 0);
        }
    }
}

void draw_bars(FILE *file, const struct inquiry *inquiry, const struct layout *layout)
{
    draw_waits(file, inquiry, layout);
    draw_turns(file, inquiry, layout);
    draw_grants(file, inquiry, layout);
}
