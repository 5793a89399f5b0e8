#include "svg.h"

#include "bars.h"
#include "clones.h"
#include "layout.h"
#include "promise.h"
#include "say.h"
#include "shapes.h"
#include "waits.h"

/* Rows at least this high have a label of two lines. */
enum { LEAST_ROW_OF_TWO = 36 };

static const char style[] =
    "<style>\n"
    "text{font-family:sans-serif;fill:#1f2937}\n"
    ".title{font-size:24px;font-weight:bold}\n"
    ".answer{font-size:17px}\n"
    ".note{font-size:13px;fill:#4b5563}\n"
    ".loud{font-size:17px;font-weight:bold;fill:#b91c1c}\n"
    ".slot{font-size:15px}\n"
    ".narrow{font-size:11px}\n"
    ".asked{font-weight:bold}\n"
    ".line{font-size:11px;text-anchor:middle;fill:#4b5563}\n"
    ".count{font-size:12px;font-weight:bold;text-anchor:middle;fill:#fff}\n"
    ".paper{fill:#fff}\n"
    ".highlight{fill:#fef3c7}\n"
    ".shade{fill:#fff8e1}\n"
    ".grid{stroke:#d1d5db;stroke-width:1}\n"
    ".refused{stroke:#dc2626;stroke-width:2.5}\n"
    ".waits{fill:#f59e0b}\n"
    ".elected{fill:#93c5fd}\n"
    ".holds{fill:#2563eb;stroke:#fff}\n"
    ".grant{fill:#111827}\n"
    ".own{fill:#15803d}\n"
    ".tick{stroke:#fff;stroke-width:2;stroke-linecap:round}\n"
    "</style>\n";

/* Says which lines are drawn, and what ended the listing. */
static void draw_extent(FILE *file, const struct inquiry *inquiry, const struct layout *layout)
{
    const struct listing *listing = &inquiry->listing;
    open_text(file, "note", MARGIN, 100);
    fprintf(file, "Lines drawn: %zu of %zu", layout->last + 1 - layout->first, listing->lines);
    fputs(listing->lines > MOST_DRAWN ? ", from the longest wait on." : ".", file);
    if (listing->refusal != 0) {
        fprintf(file, " Ended by refusal %u.", listing->refusal);
    }
    close_text(file);
}

/* Says what is wrong, a clone before all else, as it may be the cause of the rest; or answers. */
static void draw_answer(FILE *file, const struct inquiry *inquiry, bool wrong)
{
    unsigned cloned = first_cloned(&inquiry->listing);
    open_text(file, wrong ? "loud" : "answer", MARGIN, 60);
    if (cloned != 0) {
        fprintf(file, "CLONED CARD: look for number %u.", cloned);
    } else if (wrong) {
        fputs("PROMISE BROKEN in this listing.", file);
    } else {
        print_answer(file, inquiry);
    }
    close_text(file);
}

static void draw_head(FILE *file, const struct inquiry *inquiry, const struct layout *layout,
                      bool wrong)
{
    open_text(file, "title", MARGIN, 34);
    fprintf(file, "Why does slot %u wait?", inquiry->slot);
    close_text(file);
    draw_answer(file, inquiry, wrong);
    open_text(file, "note", MARGIN, 82);
    fprintf(file, "Rule %u %s, cards: %zu. Longest wait: ", inquiry->table.rule_number,
            inquiry->table.rule->name, inquiry->table.cards);
    fprintf(file, "%zu others.", longest_wait(&inquiry->listing, inquiry->number).others);
    close_text(file);
    draw_extent(file, inquiry, layout);
}

/* Every how many lines a line number has room. */
static size_t number_step(const struct layout *layout)
{
    double room = 6;
    for (size_t line = layout->last; line > 0; line /= 10) {
        room += 6.5;
    }
    size_t step = 1;
    while ((double)step * layout->column < room) {
        step = step == 1 ? 5 : 2 * step;
    }
    return step;
}

static void draw_numbers(FILE *file, const struct inquiry *inquiry, const struct layout *layout,
                         size_t band)
{
    size_t step = number_step(layout);
    double top = y_in_band(layout, band, 0);
    size_t first = first_in_band(layout, band);
    for (size_t line = first; line < first + layout->columns && line <= layout->last; line++) {
        double x = x_in_band(layout, band, (double)line);
        if (line % step == 0) {
            open_text(file, "line", x, top - 9);
            fprintf(file, "%zu", line);
            close_text(file);
        }
        if (event_at(&inquiry->listing, line)->answer != 0) {
            draw_line(file, "refused", x, top - 6, x, top);
        }
    }
}

static void draw_label(FILE *file, const struct inquiry *inquiry, const struct layout *layout,
                       unsigned number, double y)
{
    bool asked = number == inquiry->number;
    unsigned slot = inquiry->table.slot_of[number];
    double middle = y + layout->row / 2;
    if (layout->row < LEAST_ROW_OF_TWO) {
        open_text(file, asked ? "narrow asked" : "narrow", MARGIN, middle + 4);
        fprintf(file, "slot %u (%u)", slot, number);
    } else {
        open_text(file, asked ? "slot asked" : "slot", MARGIN, middle - 3);
        fprintf(file, "slot %u", slot);
        close_text(file);
        open_text(file, "note", MARGIN, middle + 15);
        fprintf(file, "number %u", number);
    }
    close_text(file);
}

static void draw_band(FILE *file, const struct inquiry *inquiry, const struct layout *layout,
                      size_t band)
{
    double right = WIDTH - MARGIN;
    for (unsigned number = 1; number < NUMBERS; number++) {
        if (has_number(&inquiry->table, number)) {
            double y = y_in_band(layout, band, layout->row_of[number]);
            if (number == inquiry->number) {
                draw_box(file, "highlight", 0, y, WIDTH, layout->row);
            }
            draw_line(file, "grid", LABELS, y, right, y);
            draw_label(file, inquiry, layout, number, y);
        }
    }
    double end = y_in_band(layout, band, layout->rows);
    draw_line(file, "grid", LABELS, end, right, end);
    draw_numbers(file, inquiry, layout, band);
}

static void draw_legend(FILE *file, const struct inquiry *inquiry, const struct layout *layout,
                        double y)
{
    bool counted = marks_are_counted(layout);
    draw_box(file, "waits", MARGIN, y + 6, 20, 10);
    draw_words(file, "note", MARGIN + 30, y + 16, "waits");
    draw_box(file, "elected", MARGIN + 95, y + 6, 20, 10);
    draw_words(file, "note", MARGIN + 125, y + 16, "elected to follow");
    draw_box(file, "holds", MARGIN + 255, y + 2, 20, 18);
    draw_words(file, "note", MARGIN + 285, y + 16, "holds the bus");
    draw_mark(file, MARGIN + 10, y + 39, 9, counted ? 1 : 0);
    open_text(file, "note", MARGIN + 30, y + 44);
    fputs("another card wins", file);
    if (counted) {
        fprintf(file, ", counted while slot %u waits", inquiry->slot);
    }
    close_text(file);
    draw_own_mark(file, MARGIN + 10, y + 65, 9);
    open_text(file, "note", MARGIN + 30, y + 70);
    fprintf(file, "slot %u wins", inquiry->slot);
    close_text(file);
    draw_line(file, "refused", MARGIN + 265, y + 60, MARGIN + 265, y + 72);
    draw_words(file, "note", MARGIN + 285, y + 70, "refused event");
}

void write_svg(const struct inquiry *inquiry, bool wrong, const char *name)
{
    struct layout layout = lay_out(inquiry);
    double height = picture_height(&layout);
    FILE *file = open_output(name);
    fprintf(file, "<svg xmlns='http://www.w3.org/2000/svg' viewBox='0 0 %d %.0f'>\n", WIDTH,
            height);
    fprintf(file, "<title>Why does slot %u wait?</title>\n%s", inquiry->slot, style);
    draw_box(file, "paper", 0, 0, WIDTH, height);
    draw_head(file, inquiry, &layout, wrong);
    draw_shades(file, inquiry, &layout);
    for (size_t band = 0; band < layout.bands; band++) {
        draw_band(file, inquiry, &layout, band);
    }
    draw_bars(file, inquiry, &layout);
    draw_legend(file, inquiry, &layout, height - LEGEND + 16);
    fputs("</svg>\n", file);
    close_output(file, name);
}
