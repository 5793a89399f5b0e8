#include "twice.h"

#include <stdio.h>
#include <string.h>

#include "times.h"

/* Where the header and the entries of the directory have what leads to the records. All places lie
 * in the file: the proved check judges the layout, with 1 to 6, before it comes to 7. */
enum {
    COLUMNS_AT = 2,
    CARDS_AT = 3,
    DIRECTORY_AT = 6,
    RECORDS_AT = 8,
    RECORD_BYTES_AT = 10,
    NAME_BYTES = 4,
    COLUMN_BYTES = 6,
};

static size_t pair_at(const struct tabfile *file, size_t at)
{
    return file->bytes[at] | (size_t)file->bytes[at + 1] << 8;
}

/* One column of the records: the value of the first card, and how far the next one is. */
struct column {
    const uint8_t *first;
    size_t step;
    size_t cards;
};

static struct column column_named(const struct tabfile *file, const char *name)
{
    const uint8_t *entry = file->bytes + pair_at(file, DIRECTORY_AT);
    const uint8_t *last = entry + COLUMN_BYTES * (file->bytes[COLUMNS_AT] - 1u);
    while (entry < last && memcmp(entry, name, NAME_BYTES) != 0) {
        entry += COLUMN_BYTES;
    }
    return (struct column){
        .first = file->bytes + pair_at(file, RECORDS_AT) + entry[NAME_BYTES],
        .step = pair_at(file, RECORD_BYTES_AT),
        .cards = file->bytes[CARDS_AT],
    };
}

static unsigned value_of(const struct column *column, size_t card)
{
    return column->first[card * column->step];
}

static size_t times_of(const struct column *column, unsigned value)
{
    size_t times = 0;
    for (size_t card = 0; card < column->cards; card++) {
        times += value_of(column, card) == value;
    }
    return times;
}

/* Prints the other column's values of the cards that have this value. */
static void print_beside(const struct column *column, unsigned value, const struct column *other)
{
    const char *before = " ";
    for (size_t card = 0; card < column->cards; card++) {
        if (value_of(column, card) == value) {
            printf("%s%u", before, value_of(other, card));
            before = ", ";
        }
    }
    putchar('\n');
}

/* Prints "number 5 stands twice: slots 2, 3". */
static void print_repeated(const struct column *column, const char *what,
                           const struct column *other, const char *beside)
{
    for (unsigned value = 0; value <= UINT8_MAX; value++) {
        size_t times = times_of(column, value);
        if (times > 1) {
            printf("%s %u stands ", what, value);
            print_times(stdout, times);
            printf(": %s", beside);
            print_beside(column, value, other);
        }
    }
}

void print_twice(const struct tabfile *file)
{
    struct column numbers = column_named(file, "ANUM");
    struct column slots = column_named(file, "SLOT");
    print_repeated(&numbers, "number", &slots, "slots");
    print_repeated(&slots, "slot", &numbers, "numbers");
}
