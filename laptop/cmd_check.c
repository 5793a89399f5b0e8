/* racklap check and racklap explain: a number of the screen and its meaning. */
#include <stdio.h>

#include "commands.h"
#include "numbers.h"
#include "rack.h"
#include "say.h"
#include "tabfile.h"
#include "twice.h"

static void print_number(uint32_t number)
{
    printf("%u: %s\n", number, meaning_of(number));
}

int check_command(struct words words)
{
    expect_words(&words, 1, 1, "check rack.tab");
    struct tabfile file = read_tabfile(words.word[0]);
    uint32_t number = rack_check(file.bytes, file.length);
    print_number(number);
    if (number == USED_TWICE) {
        print_twice(&file);
    }
    return number == 0 ? ALL_WELL : BAD_INPUT;
}

int explain_command(struct words words)
{
    expect_words(&words, 1, 1, "explain NUMBER");
    uint32_t number = number_word(words.word[0], UINT32_MAX);
    const struct screen_number *entry = screen_number(number);
    if (entry == NULL) {
        bad_input("%s is no number that the screen can show", words.word[0]);
    }
    print_number(number);
    printf("%s\n", entry->next);
    return ALL_WELL;
}
