#include "arguments.h"

#include <string.h>

#include "say.h"

static int place_of(const struct words *words, const char *option)
{
    int place = 0;
    while (place < words->count && strcmp(words->word[place], option) != 0) {
        place++;
    }
    return place;
}

static void remove_words(struct words *words, int place, int count)
{
    for (int i = place; i + count < words->count; i++) {
        words->word[i] = words->word[i + count];
    }
    words->count -= count;
}

bool take_flag(struct words *words, const char *option)
{
    int place = place_of(words, option);
    bool there = place < words->count;
    if (there) {
        remove_words(words, place, 1);
    }
    return there;
}

const char *take_value(struct words *words, const char *option, const char *what)
{
    int place = place_of(words, option);
    if (place == words->count) {
        return NULL;
    }
    if (place + 1 == words->count) {
        wrong_usage("%s wants %s", option, what);
    }
    const char *value = words->word[place + 1];
    remove_words(words, place, 2);
    return value;
}

const char *take_file(struct words *words, const char *option)
{
    return take_value(words, option, "the name of a file");
}

void expect_words(const struct words *words, int least, int most, const char *usage)
{
    for (int i = 0; i < words->count; i++) {
        if (strncmp(words->word[i], "--", 2) == 0) {
            wrong_usage("%s is no option here, or it stands twice", words->word[i]);
        }
    }
    if (words->count < least || words->count > most) {
        wrong_usage("usage: racklap %s", usage);
    }
}

uint32_t number_word(const char *word, uint32_t most)
{
    size_t digits = strspn(word, "0123456789");
    if (digits == 0 || word[digits] != '\0') {
        wrong_usage("%s is not a number", word);
    }
    uint64_t value = 0;
    for (size_t i = 0; i < digits && value <= most; i++) {
        value = value * 10 + (uint64_t)(word[i] - '0');
    }
    return value <= most ? (uint32_t)value : most;
}
