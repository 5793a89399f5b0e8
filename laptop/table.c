#include "table.h"

#include "numbers.h"
#include "rack.h"
#include "say.h"
#include "tabfile.h"

enum { TABLE_BYTES = 2 + NUMBERS };

static struct table table_from(const uint8_t bytes[TABLE_BYTES])
{
    struct table table = {.k = bytes[0], .rule_number = bytes[1], .rule = rule_numbered(bytes[1])};
    for (unsigned number = 1; number < NUMBERS; number++) {
        unsigned slot = bytes[2 + number];
        table.slot_of[number] = (uint8_t)slot;
        if (slot != 0) {
            table.number_in[slot] = (uint8_t)number;
            table.cards++;
        }
    }
    return table;
}

struct table load_table(const char *name)
{
    struct tabfile file = read_tabfile(name);
    uint8_t bytes[TABLE_BYTES] = {0};
    uint32_t refusal = rack_table(file.bytes, file.length, bytes, sizeof bytes);
    if (refusal != 0) {
        bad_input("%s is refused with %u: %s", name, refusal, meaning_of(refusal));
    }
    struct table table = table_from(bytes);
    if (table.rule == NULL) {
        bad_input("%s has rule %u, which this racklap does not know", name, table.rule_number);
    }
    return table;
}

bool has_number(const struct table *table, unsigned number)
{
    return number < NUMBERS && table->slot_of[number] != 0;
}

void print_card(FILE *file, const struct table *table, unsigned number)
{
    fprintf(file, "slot %u (number %u)", table->slot_of[number], number);
}
