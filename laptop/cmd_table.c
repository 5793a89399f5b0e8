/* racklap table: the cards of a rack by slot. */
#include <stdio.h>

#include "commands.h"
#include "say.h"
#include "table.h"

int table_command(struct words words)
{
    expect_words(&words, 1, 1, "table rack.tab");
    struct table table = load_table(words.word[0]);
    printf("k      %u, numbers 1 to %u\n", table.k, (1u << table.k) - 1);
    printf("rule   %u, %s\n", table.rule_number, table.rule->name);
    printf("cards  %zu\n\n", table.cards);
    printf("slot  number\n");
    for (unsigned slot = 1; slot < SLOTS; slot++) {
        if (table.number_in[slot] != 0) {
            printf("%4u  %6u\n", slot, table.number_in[slot]);
        }
    }
    return ALL_WELL;
}
