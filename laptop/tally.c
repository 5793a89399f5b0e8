#include "tally.h"

#include <string.h>

#include "agreement.h"
#include "fields.h"
#include "source.h"

/* Where the fields of the opening line stand: how it ended, why, the events counted. */
static const char opening_shape[] = ".... 00 00000\n";
enum { WHY_AT = 5, EVENTS_AT = 8 };

/* Where those of a card stand: slot, number, grants, mean wait, sum of squares, variance. */
static const char card_shape[] =
    "00 00 00000 00000/00000 0000000000 000000000000000/0000000000\n";
enum {
    NUMBER_AT = 3,
    GRANTS_AT = 6,
    WAITED_AT = 12,
    MEAN_OVER_AT = 18,
    SQUARES_AT = 24,
    SPREAD_AT = 35,
    SPREAD_OVER_AT = 51,
};

/* A row of the square has a number, and behind it a blank and a count for each card. */
static const char count_shape[] = " 00000";
enum { COUNTS_AT = 2, COUNT_BYTES = sizeof count_shape - 1 };

static bool is_line(const struct source *source, const char *shape)
{
    size_t bytes = strlen(shape);
    return source->length == bytes && has_shape(source->bytes, shape, bytes);
}

static bool begins(const struct source *source, const char *word)
{
    return memcmp(source->bytes, word, strlen(word)) == 0;
}

/* Takes the opening line; false if it is none. */
static bool take_opening(struct tally *tally, const struct source *source)
{
    if (!is_line(source, opening_shape)) {
        return false;
    }
    unsigned why = (unsigned)number_at(source->bytes, WHY_AT);
    tally->ending = why;
    tally->events = number_at(source->bytes, EVENTS_AT);
    tally->table_refused = begins(source, "tab.");
    if (tally->table_refused) {
        return why >= 1 && why <= 7 && tally->events == 0;
    }
    bool full = tally->events == MOST_EVENTS;
    return begins(source, "end.") && tally->events <= MOST_EVENTS &&
           (why == 0 || why == MALFORMED || (why == COUNTED_FULL && full));
}

static void take_card(struct tally *tally, const struct source *source)
{
    const char *line = source->bytes;
    struct card card = {
        .slot = (unsigned)number_at(line, 0),
        .number = (unsigned)number_at(line, NUMBER_AT),
        .grants = number_at(line, GRANTS_AT),
        .waited = number_at(line, WAITED_AT),
        .squares = number_at(line, SQUARES_AT),
        .spread = number_at(line, SPREAD_AT),
    };
    check_place(tally, &card, source->line);
    check_fractions(&card, number_at(line, MEAN_OVER_AT), number_at(line, SPREAD_OVER_AT),
                    source->line);
    tally->card[tally->cards++] = card;
    check_events(tally, source->line);
}

static bool is_row(const struct source *source, size_t cards)
{
    const char *line = source->bytes;
    size_t end = COUNTS_AT + cards * COUNT_BYTES;
    bool fits = source->length == end + 1 && has_shape(line, "00", COUNTS_AT) && line[end] == '\n';
    for (size_t at = COUNTS_AT; fits && at < end; at += COUNT_BYTES) {
        fits = has_shape(line + at, count_shape, COUNT_BYTES);
    }
    return fits;
}

/* Ends with bad input: this is not the row of the card with this index, nor what may stand in its
 * place. */
static _Noreturn void no_row(const struct tally *tally, const struct source *source, size_t row,
                             const char *instead)
{
    char expected[160];
    snprintf(expected, sizeof expected, "%sthe row of number %02u, with a count for each of %zu",
             instead, tally->card[row].number, tally->cards);
    no_line(source, expected);
}

static void take_row(struct tally *tally, const struct source *source, size_t row)
{
    if (!is_row(source, tally->cards) || number_at(source->bytes, 0) != tally->card[row].number) {
        no_row(tally, source, row, "");
    }
    for (size_t column = 0; column < tally->cards; column++) {
        tally->square[row][column] =
            number_at(source->bytes, COUNTS_AT + column * COUNT_BYTES + 1);
    }
    check_row(tally, row, source->line);
}

#define CARD_LIKE "a card like 03 06 00002 00002/00002 0000000004 000000000000004/0000000004"

/* Takes all cards, one at least, and reads the line behind them: a row of the square, or none. */
static void take_cards(struct tally *tally, struct source *source)
{
    next_line(source);
    while (is_line(source, card_shape)) {
        take_card(tally, source);
        next_line(source);
    }
    if (tally->cards == 0) {
        no_line(source, CARD_LIKE);
    }
    if (source->length > 0 && !is_row(source, tally->cards)) {
        no_row(tally, source, 0, CARD_LIKE ", or ");
    }
}

static void take_square(struct tally *tally, struct source *source)
{
    tally->has_square = source->length > 0;
    for (size_t row = 0; tally->has_square && row < tally->cards; row++) {
        take_row(tally, source, row);
        next_line(source);
    }
}

/* The index of the card in this slot, or the number of cards if there is none. */
static size_t card_in(const struct tally *tally, unsigned slot)
{
    size_t index = 0;
    while (index < tally->cards && tally->card[index].slot != slot) {
        index++;
    }
    return index;
}

static void order_by_slot(struct tally *tally)
{
    size_t place = 0;
    for (unsigned slot = 1; slot <= MOST_CARDS; slot++) {
        size_t index = card_in(tally, slot);
        if (index < tally->cards) {
            tally->by_slot[place++] = index;
        }
    }
}

struct tally read_tally(const char *name)
{
    struct tally tally = {.cards = 0};
    struct source source = open_source(name);
    next_line(&source);
    if (!take_opening(&tally, &source)) {
        no_line(&source, "one like end. 00 00012");
    }
    if (tally.table_refused) {
        next_line(&source);
    } else {
        take_cards(&tally, &source);
        take_square(&tally, &source);
    }
    if (source.length > 0) {
        no_line(&source, "the end of the report");
    }
    close_source(&source);
    order_by_slot(&tally);
    return tally;
}

const struct card *card_by_slot(const struct tally *tally, size_t place)
{
    return &tally->card[tally->by_slot[place]];
}

uint64_t left_waiting(const struct tally *tally, size_t waiter, size_t granted)
{
    return tally->square[tally->by_slot[waiter]][tally->by_slot[granted]];
}
