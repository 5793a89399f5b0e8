#include "square.h"

#include <inttypes.h>
#include <string.h>

#include "fields.h"
#include "figures.h"

static void look_at(struct greatest *greatest, const struct tally *tally, size_t waiter,
                    size_t granted)
{
    uint64_t count = left_waiting(tally, waiter, granted);
    if (count > greatest->count) {
        *greatest = (struct greatest){.count = count, .waiter = waiter, .granted = granted};
    } else if (count == greatest->count && count > 0) {
        greatest->as_many++;
    }
}

struct greatest greatest_count(const struct tally *tally)
{
    struct greatest greatest = {.count = 0};
    for (size_t i = 0; i < tally->cards * tally->cards; i++) {
        look_at(&greatest, tally, i / tally->cards, i % tally->cards);
    }
    return greatest;
}

void print_greatest(FILE *file, const struct tally *tally, const struct greatest *greatest)
{
    if (greatest->count == 0) {
        fputs("No slot waited for another.", file);
    } else {
        fprintf(file, "Slot %u waited most for slot %u: %" PRIu64 " grant%s.",
                card_by_slot(tally, greatest->waiter)->slot,
                card_by_slot(tally, greatest->granted)->slot, greatest->count,
                greatest->count == 1 ? "" : "s");
    }
}

void print_as_many(FILE *file, const struct greatest *greatest)
{
    fprintf(file, "As often: %zu more pair%s.", greatest->as_many,
            greatest->as_many == 1 ? "" : "s");
}

/* A block of columns, from one place to another that is left out. */
struct block {
    size_t from;
    size_t to;
    int width; /* of a column without the blank before it */
};

static const char corner[] = "waits";

static void print_columns(const struct tally *tally, const struct block *block)
{
    fputs(corner, stdout);
    for (size_t granted = block->from; granted < block->to; granted++) {
        printf(" %*u", block->width, card_by_slot(tally, granted)->slot);
    }
    putchar('\n');
}

static void print_row(const struct tally *tally, const struct block *block, size_t waiter)
{
    printf("%*u", (int)strlen(corner), card_by_slot(tally, waiter)->slot);
    for (size_t granted = block->from; granted < block->to; granted++) {
        uint64_t count = left_waiting(tally, waiter, granted);
        if (count == 0) {
            printf(" %*s", block->width, ".");
        } else {
            printf(" %*" PRIu64, block->width, count);
        }
    }
    putchar('\n');
}

static void print_block(const struct tally *tally, const struct block *block)
{
    putchar('\n');
    print_columns(tally, block);
    for (size_t waiter = 0; waiter < tally->cards; waiter++) {
        print_row(tally, block, waiter);
    }
}

void print_square(const struct tally *tally)
{
    int most = (int)digits(greatest_count(tally).count);
    int width = most > 2 ? most : 2;
    size_t columns = (TEXT_WIDTH - strlen(corner)) / ((size_t)width + 1);
    printf("Who waits for whom: a row is the slot that waits, a column the slot granted.\n"
           "A count is the grants to the column that left the row waiting.\n");
    for (size_t from = 0; from < tally->cards; from += columns) {
        size_t to = from + columns < tally->cards ? from + columns : tally->cards;
        struct block block = {.from = from, .to = to, .width = width};
        print_block(tally, &block);
    }
}
