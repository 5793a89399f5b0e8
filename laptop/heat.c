#include "heat.h"

#include <inttypes.h>

#include "cells.h"
#include "keys.h"
#include "layout.h"
#include "say.h"
#include "shapes.h"

static void write_style(FILE *file, const struct map *map)
{
    fputs("<style>\n"
          "text{font-family:sans-serif;fill:#1f2937}\n"
          ".title{font-size:24px;font-weight:bold}\n"
          ".answer{font-size:15px}\n"
          ".note{font-size:13px;fill:#4b5563}\n"
          ".key{font-size:12px;fill:#4b5563}\n"
          ".axis{font-size:12px;font-weight:bold}\n"
          ".row,.down{text-anchor:end}\n"
          ".column,.count{text-anchor:middle}\n",
          file);
    fprintf(file, ".label{font-size:%.1fpx}\n.count{font-size:%.1fpx}\n", map->label, map->count);
    fputs(".light{fill:#fff}\n"
          ".paper{fill:#fff}\n"
          ".none{fill:#fff;stroke:#d1d5db;stroke-width:1}\n"
          ".self{fill:#d1d5db}\n"
          ".grid{stroke:#d1d5db;stroke-width:0.5}\n"
          ".lead{stroke:#9ca3af;stroke-width:0.5}\n"
          ".most{fill:none;stroke:#1d4ed8;stroke-width:2}\n"
          ".shade1{fill:#fef3c7}\n"
          ".shade2{fill:#fcd98a}\n"
          ".shade3{fill:#f9b64a}\n"
          ".shade4{fill:#e8871e}\n"
          ".shade5{fill:#b8540c}\n"
          ".shade6{fill:#6f2a0a}\n"
          "</style>\n",
          file);
}

static void draw_head(FILE *file, const struct map *map)
{
    draw_words(file, "title", MARGIN, 34, "Who waits for whom?");
    open_text(file, "answer", MARGIN, 60);
    print_greatest(file, map->tally, &map->most);
    close_text(file);
    if (map->most.as_many > 0) {
        open_text(file, "note", MARGIN, 82);
        print_as_many(file, &map->most);
        close_text(file);
    }
    open_text(file, "note", MARGIN, 100);
    fprintf(file, "Done events: %" PRIu64 ".", map->tally->events);
    if (map->tally->ending != 0) {
        fprintf(file, " Ended by %u.", map->tally->ending);
    }
    close_text(file);
    draw_words(file, "axis", MAP_LEFT, MAP_CAPTION, "granted slot");
    draw_upright(file, "axis down", MARGIN + 9, map->top, "waiting slot");
}

/* A cell may be narrower than a label is high. Then every other label stands further out, and a
 * thin line leads from it to its cells, between the labels of the inner lane. */
static void draw_row_label(FILE *file, const struct map *map, size_t place)
{
    double out = (double)(place % map->lanes * LANE);
    double middle = y_of(map, place) + map->cell / 2;
    draw_line(file, "lead", MAP_LEFT - 3 - out, middle, MAP_LEFT, middle);
    open_text(file, "label row", MAP_LEFT - 4 - out, middle + 0.36 * map->label);
    fprintf(file, "%u", card_by_slot(map->tally, place)->slot);
    close_text(file);
}

static void draw_column_label(FILE *file, const struct map *map, size_t place)
{
    char slot[12];
    double out = (double)(place % map->lanes * LANE);
    double middle = x_of(map, place) + map->cell / 2;
    snprintf(slot, sizeof slot, "%u", card_by_slot(map->tally, place)->slot);
    draw_line(file, "lead", middle, map->top - 3 - out, middle, map->top);
    if (map->upright) {
        draw_upright(file, "label", middle + 0.36 * map->label, map->top - 4 - out, slot);
    } else {
        draw_words(file, "label column", middle, map->top - 5, slot);
    }
}

static void draw_labels(FILE *file, const struct map *map)
{
    for (size_t place = 0; place < map->tally->cards; place++) {
        draw_row_label(file, map, place);
        draw_column_label(file, map, place);
    }
}

void write_heat(const struct tally *tally, const char *name)
{
    struct map map = lay_map(tally);
    double height = y_of(&map, tally->cards) + MAP_KEYS;
    FILE *file = open_output(name);
    fprintf(file, "<svg xmlns='http://www.w3.org/2000/svg' viewBox='0 0 %d %.0f'>\n", WIDTH,
            height);
    fputs("<title>Who waits for whom?</title>\n", file);
    write_style(file, &map);
    draw_box(file, "paper", 0, 0, WIDTH, height);
    draw_head(file, &map);
    draw_labels(file, &map);
    draw_cells(file, &map);
    draw_keys(file, &map);
    fputs("</svg>\n", file);
    close_output(file, name);
}
