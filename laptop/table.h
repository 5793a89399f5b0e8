/* The card table of a rack, as the proved entries read it. */
#ifndef TABLE_H
#define TABLE_H

#include <stdbool.h>
#include <stdint.h>
#include <stdio.h>

#include "rules.h"

enum { NUMBERS = 64, SLOTS = 64 }; /* 0 to 63, where 0 is no card and no slot */

struct table {
    unsigned k;
    unsigned rule_number;
    const struct rule *rule;
    uint8_t slot_of[NUMBERS]; /* 0 for a number that no card has */
    uint8_t number_in[SLOTS]; /* 0 for a slot without a card */
    size_t cards;
};

/* Ends with bad input if the file cannot be read or is refused. */
struct table load_table(const char *name);

bool has_number(const struct table *table, unsigned number);

/* Prints "slot 3 (number 6)". */
void print_card(FILE *file, const struct table *table, unsigned number);

#endif
