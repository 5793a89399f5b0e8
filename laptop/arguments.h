/* The words of the command line that follow the command. */
#ifndef ARGUMENTS_H
#define ARGUMENTS_H

#include <stdbool.h>
#include <stdint.h>

struct words {
    int count;
    char **word;
};

/* Takes an option out of the words: whether it was there. */
bool take_flag(struct words *words, const char *option);

/* Takes an option and the word behind it out of the words: that word, or null. `what` says what the
 * option wants. */
const char *take_value(struct words *words, const char *option, const char *what);

/* The same for an option that wants the name of a file. */
const char *take_file(struct words *words, const char *option);

/* Ends with wrong usage unless `least` to `most` words are left and none of them is an option. */
void expect_words(const struct words *words, int least, int most, const char *usage);

/* A decimal number; wrong usage if the word is none. One above `most` counts as `most`: give a
 * `most` that is itself out of range for whoever judges the number. */
uint32_t number_word(const char *word, uint32_t most);

#endif
