#include "agreement.h"

#include <inttypes.h>

#include "say.h"

static bool slot_is_taken(const struct tally *tally, unsigned slot)
{
    size_t i = 0;
    while (i < tally->cards && tally->card[i].slot != slot) {
        i++;
    }
    return i < tally->cards;
}

void check_place(const struct tally *tally, const struct card *card, size_t line)
{
    unsigned last = tally->cards == 0 ? 0 : tally->card[tally->cards - 1].number;
    if (card->number == 0 || card->number > MOST_CARDS) {
        bad_input("report line %zu: %u is no number, numbers are 1 to %d", line, card->number,
                  MOST_CARDS);
    }
    if (card->number <= last) {
        bad_input("report line %zu: number %u does not rise above %u", line, card->number, last);
    }
    if (card->slot == 0 || card->slot > MOST_CARDS) {
        bad_input("report line %zu: %u is no slot, slots are 1 to %d", line, card->slot,
                  MOST_CARDS);
    }
    if (slot_is_taken(tally, card->slot)) {
        bad_input("report line %zu: slot %u has a card already", line, card->slot);
    }
}

/* Whether some waits have this sum and this sum of squares. Of whole numbers, the sum of squares is
 * at least the sum and at most its square, and it is odd exactly where the sum is. */
static bool waits_exist(const struct card *card)
{
    if (card->grants == 0) {
        return card->waited == 0 && card->squares == 0;
    }
    return card->squares >= card->waited && card->squares <= card->waited * card->waited &&
           card->squares % 2 == card->waited % 2;
}

/* Whether the spread is grants times squares less the sum squared. All sums and products stay below
 * 2^64: grants and a sum have 5 digits, squares 10, a spread 15. */
static bool spread_fits(const struct card *card)
{
    return card->spread + card->waited * card->waited == card->grants * card->squares;
}

void check_fractions(const struct card *card, uint64_t mean_over, uint64_t spread_over, size_t line)
{
    uint64_t grants = card->grants;
    if (mean_over != grants) {
        bad_input("report line %zu: the mean wait is over %" PRIu64 ", but the grants are %" PRIu64,
                  line, mean_over, grants);
    }
    if (spread_over != grants * grants) {
        bad_input("report line %zu: the variance is over %" PRIu64
                  ", but the grants squared are %" PRIu64,
                  line, spread_over, grants * grants);
    }
    if (!waits_exist(card)) {
        bad_input("report line %zu: no waits have this mean and this sum of squares", line);
    }
    if (!spread_fits(card)) {
        bad_input("report line %zu: the variance does not fit the grants, the waits and the squares",
                  line);
    }
}

static uint64_t all_grants(const struct tally *tally)
{
    uint64_t grants = 0;
    for (size_t i = 0; i < tally->cards; i++) {
        grants += tally->card[i].grants;
    }
    return grants;
}

void check_events(const struct tally *tally, size_t line)
{
    uint64_t grants = all_grants(tally);
    if (grants > tally->events || tally->card[tally->cards - 1].waited > tally->events) {
        bad_input("report line %zu: more grants or waits than the %" PRIu64
                  " done events", line,
                  tally->events);
    }
}

static void check_entry(const struct tally *tally, size_t row, size_t column, size_t line)
{
    const struct card *granted = &tally->card[column];
    uint64_t entry = tally->square[row][column];
    if (row == column && entry != 0) {
        bad_input("report line %zu: number %u waits for itself", line, granted->number);
    }
    if (entry > granted->grants) {
        bad_input("report line %zu: number %u has %" PRIu64 " grants, but a count of %" PRIu64,
                  line, granted->number, granted->grants, entry);
    }
}

void check_row(const struct tally *tally, size_t row, size_t line)
{
    uint64_t sum = 0;
    for (size_t column = 0; column < tally->cards; column++) {
        check_entry(tally, row, column, line);
        sum += tally->square[row][column];
    }
    /* The row also counts for a wait that is not over, the mean does not. */
    if (sum < tally->card[row].waited) {
        bad_input("report line %zu: the waits of number %u sum to %" PRIu64
                  ", but its row to %" PRIu64,
                  line, tally->card[row].number, tally->card[row].waited, sum);
    }
}
