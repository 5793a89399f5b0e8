#include "fence.h"
#include "guard.h"
#include "rack.h"
#include "tally.h"

#include <stdio.h>

enum { MOST = 70 };

struct settling {
    const char *name;
    uint32_t m;
    size_t numbers_len; /* in bytes */
    uint16_t numbers[MOST];
    size_t stages_len; /* in bytes */
    uint32_t answer; /* t without the copies, or 100 plus the refusal */
    uint32_t copies; /* entries that equal the settled lines */
    uint16_t lines[5]; /* from stage 0 to t */
    uint32_t start;
};

static const struct settling KNOWN[] = {
    {"P1", 4, 8, {2, 5, 9, 10}, 10, 4, 1, {0, 15, 8, 11, 10}, 0},
    {"P2", 6, 4, {50, 46}, 14, 3, 1, {0, 62, 48, 50}, 0},
    {"P3", 7, 4, {85, 28}, 16, 3, 1, {0, 93, 80, 85}, 0},
    {"P4", 1, 0, {0}, 4, 0, 0, {0}, 0},
    {"P5", 1, 2, {0}, 4, 0, 1, {0}, 0},
    {"P6", 1, 2, {1}, 4, 1, 1, {0, 1}, 0},
    {"P7", 3, 4, {5, 5}, 8, 1, 2, {0, 5}, 0},
    {"P8", 3, 6, {2, 5, 6}, 8, 2, 1, {0, 7, 6}, 0},
    {"P9", 4, 6, {10, 13, 6}, 10, 3, 1, {0, 15, 12, 13}, 0},
    {"P10", 6, 4, {18, 14}, 14, 3, 1, {0, 30, 16, 18}, 0},
    {"P1 from 15", 4, 8, {2, 5, 9, 10}, 10, 3, 1, {15, 8, 11, 10}, 15},
    {"P1 from 10", 4, 8, {2, 5, 9, 10}, 10, 0, 1, {10}, 10},
    {"5 and 2 on 4 lines from 8", 4, 4, {5, 2}, 10, 4, 1, {8, 0, 7, 4, 5}, 8},
    {"no number from 4095", 12, 0, {0}, 26, 1, 0, {4095, 0}, 4095},
    {"0 on 1 line from 1", 1, 2, {0}, 4, 1, 1, {1, 0}, 1},
};

static const struct settling EDGES[] = {
    {"odd byte passed over", 3, 5, {5, 5, 7}, 8, 1, 2, {0, 5}, 0},
    {"64 numbers", 3, 128, {5}, 8, 1, 1, {0, 5}, 0},
    {"64 numbers and a byte", 3, 129, {5}, 8, 1, 1, {0, 5}, 0},
    {"greatest of 12 lines", 12, 2, {4095}, 26, 1, 1, {0, 4095}, 0},
    {"greatest of 1 line", 1, 2, {1}, 4, 1, 1, {0, 1}, 0},
    {"12 lines, no number", 12, 0, {0}, 26, 0, 0, {0}, 0},
    {"m is 0", 0, 2, {0}, 30, 121, 0, {0}, 0},
    {"m is 13", 13, 2, {0}, 30, 121, 0, {0}, 0},
    {"m is 260", 260, 2, {0}, 30, 121, 0, {0}, 0},
    {"m is 2^32 - 1", UINT32_MAX, 2, {0}, 30, 121, 0, {0}, 0},
    {"m is 0, nothing lent", 0, 0, {0}, 0, 121, 0, {0}, 0},
    {"65 numbers", 3, 130, {5}, 8, 122, 0, {0}, 0},
    {"65 numbers and a byte", 3, 131, {5}, 8, 122, 0, {0}, 0},
    {"16 on 4 lines", 4, 4, {15, 16}, 10, 123, 0, {0}, 0},
    {"2 on 1 line", 1, 2, {2}, 4, 123, 0, {0}, 0},
    {"4096 on 12 lines", 12, 2, {4096}, 26, 123, 0, {0}, 0},
    {"65535 on 12 lines", 12, 2, {65535}, 26, 123, 0, {0}, 0},
    {"no buffer", 4, 2, {1}, 0, 124, 0, {0}, 0},
    {"buffer of one byte", 4, 2, {1}, 1, 124, 0, {0}, 0},
    {"buffer of 12 entries for 12 lines", 12, 2, {1}, 24, 124, 0, {0}, 0},
    {"half an entry short", 12, 2, {1}, 25, 124, 0, {0}, 0},
    {"start of 2 on 1 line", 1, 2, {1}, 4, 125, 0, {0}, 2},
    {"start of 16 on 4 lines", 4, 8, {2, 5, 9, 10}, 10, 125, 0, {0}, 16},
    {"start of 4096 on 12 lines", 12, 2, {4095}, 26, 125, 0, {0}, 4096},
    {"start of 65536", 12, 2, {4095}, 26, 125, 0, {0}, 65536},
    {"start of 65537", 1, 2, {1}, 4, 125, 0, {0}, 65537},
    {"start of 2^32 - 1", 12, 0, {0}, 26, 125, 0, {0}, UINT32_MAX},
    {"start of 4095 on 12 lines", 12, 2, {4095}, 26, 0, 1, {4095}, 4095},
    {"21 before 22", 0, 130, {0}, 30, 121, 0, {0}, 0},
    {"21 before 23", 13, 2, {65535}, 30, 121, 0, {0}, 0},
    {"21 before 24", 13, 2, {0}, 0, 121, 0, {0}, 0},
    {"22 before 23", 4, 130, {16}, 10, 122, 0, {0}, 0},
    {"22 before 24", 4, 130, {5}, 0, 122, 0, {0}, 0},
    {"23 before 24", 4, 2, {16}, 0, 123, 0, {0}, 0},
    {"21 before 25", 0, 2, {0}, 30, 121, 0, {0}, 1},
    {"22 before 25", 4, 130, {5}, 10, 122, 0, {0}, 16},
    {"23 before 25", 4, 2, {16}, 10, 123, 0, {0}, 16},
    {"24 before 25", 4, 2, {1}, 9, 124, 0, {0}, 16},
};

static struct fence competing(const struct settling *settling, enum side side)
{
    uint8_t bytes[2 * MOST];
    for (size_t i = 0; i < MOST; i++) {
        bytes[2 * i] = settling->numbers[i] & 0xFF;
        bytes[2 * i + 1] = settling->numbers[i] >> 8;
    }
    return fence_input(bytes, settling->numbers_len, side);
}

static bool holds_lines(const uint8_t *bytes, const uint16_t *lines, size_t count)
{
    for (size_t i = 0; i < count; i++) {
        if (bytes[2 * i] + 256 * bytes[2 * i + 1] != lines[i]) {
            return false;
        }
    }
    return true;
}

static bool holds(const struct settling *settling, size_t stages_len, enum side side)
{
    struct fence numbers = competing(settling, side);
    struct fence stages = fence_open(stages_len, side);
    uint32_t answer = rack_settle(settling->m, numbers.bytes, numbers.length, stages.bytes,
                                  stages.length, settling->start);
    size_t written = settling->answer < 100 ? settling->answer + 1 : 0;
    bool good = answer == settling->answer + 256 * settling->copies &&
                holds_lines(stages.bytes, settling->lines, written) &&
                fence_untouched_from(&stages, 2 * written);
    fence_close(&numbers);
    fence_close(&stages);
    return good;
}

static void judge(const struct settling *settling, size_t more)
{
    char name[100];
    size_t stages_len = settling->stages_len + more;
    snprintf(name, sizeof name, "%s, buffer of %zu bytes", settling->name, stages_len);
    tally(holds(settling, stages_len, AT_THE_START) && holds(settling, stages_len, AT_THE_END),
          name);
}

/* Full lists of cloned cards, and one too long. */
static void judge_clones(void)
{
    struct settling clones = {"64 times 5", 3, 128, {0}, 8, 1, 64, {0, 5}, 0};
    for (size_t i = 0; i < MOST; i++) {
        clones.numbers[i] = 5;
    }
    struct settling beaten = clones;
    beaten.name = "63 times 5 and once 6";
    beaten.numbers[63] = 6;
    beaten.answer = 2;
    beaten.copies = 1;
    beaten.lines[1] = 7;
    beaten.lines[2] = 6;
    struct settling too_many = clones;
    too_many.name = "65 times 5";
    too_many.numbers_len = 130;
    too_many.answer = 122;
    too_many.copies = 0;
    judge(&clones, 0);
    judge(&beaten, 0);
    judge(&too_many, 0);
}

void guard_settlings(void)
{
    for (size_t i = 0; i < sizeof KNOWN / sizeof *KNOWN; i++) {
        judge(&KNOWN[i], 0);
        judge(&KNOWN[i], 1);
        judge(&KNOWN[i], 30);
    }
    for (size_t i = 0; i < sizeof EDGES / sizeof *EDGES; i++) {
        judge(&EDGES[i], 0);
    }
    judge_clones();
}
