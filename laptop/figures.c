#include "figures.h"

#include <inttypes.h>
#include <stdio.h>
#include <string.h>

#include "fraction.h"
#include "numbers.h"

void print_counted(const struct tally *tally)
{
    unsigned number = tally->ending;
    if (tally->table_refused) {
        printf("Nothing was counted, for the table is refused with %u: ", number);
    } else if (number != 0) {
        printf("Done events counted: %" PRIu64 ". The counting ended with %u: ", tally->events,
               number);
    } else {
        printf("Done events counted: %" PRIu64 ", to the end of the trace.\n", tally->events);
        return;
    }
    printf("%s (racklap explain %u says more).\n", meaning_of(number), number);
}

/* How wide a fraction and its decimal are, so that those of all cards stand below each other. */
struct column {
    int exact;
    int decimal;
};

struct texts {
    char exact[FRACTION_BYTES];
    char decimal[FRACTION_BYTES];
};

static struct texts texts_of(uint64_t over, uint64_t under)
{
    struct texts texts;
    write_fraction(texts.exact, over, under);
    write_decimal(texts.decimal, over, under);
    return texts;
}

static struct texts mean_of(const struct card *card)
{
    return texts_of(card->waited, card->grants);
}

static struct texts variance_of(const struct card *card)
{
    return texts_of(card->spread, card->grants * card->grants);
}

static void widen(struct column *column, struct texts texts)
{
    int exact = (int)strlen(texts.exact);
    int decimal = (int)strlen(texts.decimal);
    column->exact = exact > column->exact ? exact : column->exact;
    column->decimal = decimal > column->decimal ? decimal : column->decimal;
}

typedef struct texts figure_of(const struct card *card);

/* The column of one figure over all cards that have it. */
static struct column column_of(const struct tally *tally, figure_of *figure)
{
    struct column column = {.exact = 3, .decimal = 5};
    for (size_t i = 0; i < tally->cards; i++) {
        if (tally->card[i].grants > 0) {
            widen(&column, figure(&tally->card[i]));
        }
    }
    return column;
}

static void print_texts(struct column column, struct texts texts, const char *after)
{
    printf("  %*s = %*s%s", column.exact, texts.exact, column.decimal, texts.decimal, after);
}

void print_figures(const struct tally *tally)
{
    struct column mean = column_of(tally, mean_of);
    struct column variance = column_of(tally, variance_of);
    printf("slot  number  grants  %-*s  variance\n", mean.exact + 3 + mean.decimal, "mean wait");
    for (size_t i = 0; i < tally->cards; i++) {
        const struct card *card = card_by_slot(tally, i);
        printf("%4u  %6u  %6" PRIu64, card->slot, card->number, card->grants);
        if (card->grants == 0) {
            printf("  no grants\n");
        } else {
            print_texts(mean, mean_of(card), "");
            print_texts(variance, variance_of(card), "\n");
        }
    }
}

/* Whether one card's mean wait is longer than another's; both have grants. Of two fractions that
 * is longer whose product with the other's lower number is. */
static bool waits_longer(const struct card *card, const struct card *other)
{
    return card->waited * other->grants > other->waited * card->grants;
}

/* The card with the longest mean wait, or null if no card has one above 0. */
static const struct card *longest_mean(const struct tally *tally)
{
    const struct card *longest = NULL;
    for (size_t i = 0; i < tally->cards; i++) {
        const struct card *card = &tally->card[i];
        if (card->waited > 0 && (longest == NULL || waits_longer(card, longest))) {
            longest = card;
        }
    }
    return longest;
}

/* As many marks as the card's mean wait has in `room` marks of the longest, to the nearest, but one
 * at least for a mean above 0. */
static int marks(const struct card *card, const struct card *longest, uint64_t room)
{
    if (card->waited == 0) {
        return 0;
    }
    uint64_t over = card->waited * longest->grants * room;
    uint64_t under = card->grants * longest->waited;
    uint64_t count = (2 * over + under) / (2 * under);
    return count == 0 ? 1 : (int)count;
}

static void print_bar(const struct card *card, const struct card *longest, int decimal)
{
    static const char bar[] = "################################################################";
    int room = TEXT_WIDTH - (int)strlen("slot 63    ") - decimal;
    int most = (int)sizeof bar - 1;
    struct texts mean = mean_of(card);
    int length = marks(card, longest, (uint64_t)(room < most ? room : most));
    printf("slot %2u  %*s%s%.*s\n", card->slot, decimal, mean.decimal, length > 0 ? "  " : "",
           length, bar);
}

void print_mean_bars(const struct tally *tally)
{
    const struct card *longest = longest_mean(tally);
    int decimal = column_of(tally, mean_of).decimal;
    printf("Mean wait, in grants to others:\n");
    for (size_t i = 0; i < tally->cards; i++) {
        const struct card *card = card_by_slot(tally, i);
        if (card->grants == 0) {
            printf("slot %2u  no grants\n", card->slot);
        } else {
            print_bar(card, longest, decimal);
        }
    }
}
