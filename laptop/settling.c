#include "settling.h"

#include "arguments.h"
#include "numbers.h"
#include "rack.h"
#include "say.h"

/* The entry answers t, which is at most 12, plus MATCH for each number that equals the settled
 * lines; or REFUSED plus the number of the refusal. */
enum { REFUSED = 100, MATCH = 256, GREATEST_ENTRY = 65535 };

static unsigned entry_at(const uint8_t *entries, size_t index)
{
    return entries[ENTRY_BYTES * index] | (unsigned)entries[ENTRY_BYTES * index + 1] << 8;
}

static void put_entry(uint8_t *entries, size_t index, uint32_t value)
{
    entries[ENTRY_BYTES * index] = (uint8_t)(value & 0xff);
    entries[ENTRY_BYTES * index + 1] = (uint8_t)(value >> 8);
}

static void keep_numbers(struct settling *settling, size_t count, char **numbers)
{
    for (size_t i = 0; i < count; i++) {
        uint32_t number = number_word(numbers[i], GREATEST_ENTRY);
        if (i < KEPT_NUMBERS) {
            put_entry(settling->numbers, i, number);
        }
    }
    settling->count = count < KEPT_NUMBERS ? count : KEPT_NUMBERS;
}

struct settling settle(uint32_t m, uint32_t start, size_t count, char **numbers)
{
    struct settling settling = {.m = m, .start = start};
    keep_numbers(&settling, count, numbers);
    uint32_t answer = rack_settle(m, settling.numbers, settling.count * ENTRY_BYTES,
                                  settling.stages, sizeof settling.stages, start);
    settling.t = answer % MATCH;
    settling.matches = answer / MATCH;
    if (settling.t >= REFUSED) {
        bad_input("refused with %u: %s", answer - REFUSED, meaning_of(answer - REFUSED));
    }
    return settling;
}

unsigned competitor(const struct settling *settling, size_t index)
{
    return entry_at(settling->numbers, index);
}

unsigned greatest_competitor(const struct settling *settling)
{
    unsigned greatest = 0;
    for (size_t i = 0; i < settling->count; i++) {
        unsigned number = competitor(settling, i);
        greatest = number > greatest ? number : greatest;
    }
    return greatest;
}

unsigned lines_after(const struct settling *settling, uint32_t stage)
{
    return entry_at(settling->stages, stage);
}

unsigned withdrawn(unsigned own, unsigned lines)
{
    unsigned below_conflict = 0;
    for (unsigned bit = 1u << (MOST_LINES - 1); bit != 0 && below_conflict == 0; bit >>= 1) {
        if ((lines & bit) != 0 && (own & bit) == 0) {
            below_conflict = bit - 1;
        }
    }
    return own & below_conflict;
}
