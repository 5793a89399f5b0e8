#include "fence.h"
#include "guard.h"
#include "rack.h"
#include "tally.h"

#include <stdio.h>
#include <string.h>

enum {
    TABLE_BYTES = 66,
    WORKED_BYTES = 30,
    RECORDS_AT = 24,
    LONGEST = 8192
};

/* Cards 2, 5 and 6 in slots 1, 2 and 3; k is 3 and the rule is 1. */
static const uint8_t WORKED[WORKED_BYTES] = {
    0x01, 0x00, 0x02, 0x03, 0x03, 0x01, 0x0C, 0x00, 0x18, 0x00, 0x02, 0x00, 0x41, 0x4E, 0x55,
    0x4D, 0x00, 0x01, 0x53, 0x4C, 0x4F, 0x54, 0x01, 0x01, 0x02, 0x01, 0x05, 0x02, 0x06, 0x03,
};

/* One byte of the worked table changed. */
static const struct {
    size_t at;
    uint8_t value;
    uint32_t refusal;
} EDITS[] = {
    {0, 0, 2},    {0, 2, 2},    {1, 1, 2},    {2, 1, 3},    {2, 17, 3},   {3, 0, 3},
    {3, 8, 3},    {3, 64, 3},   {4, 0, 3},    {4, 7, 3},    {4, 1, 3},    {5, 5, 3},
    {5, 255, 3},  {10, 1, 3},   {10, 65, 3},  {11, 1, 3},   {3, 2, 4},    {3, 4, 4},
    {6, 11, 4},   {6, 13, 4},   {7, 255, 4},  {8, 23, 4},   {8, 25, 4},   {9, 255, 4},
    {10, 3, 4},   {12, '@', 5}, {12, '[', 5}, {13, '/', 5}, {14, ':', 5}, {15, 'm', 5},
    {17, 0, 5},   {17, 5, 5},   {16, 2, 5},   {16, 255, 5}, {23, 2, 5},   {12, 'B', 6},
    {21, 'S', 6}, {17, 2, 6},   {24, 0, 7},   {24, 8, 7},   {24, 255, 7}, {25, 0, 7},
    {25, 64, 7},  {26, 2, 7},   {27, 1, 7},   {22, 0, 0},   {4, 6, 0},    {5, 0, 0},
    {5, 2, 0},    {5, 3, 0},    {5, 4, 0},    {24, 1, 0},   {24, 7, 0},   {25, 63, 0},
};

static bool check_holds(const uint8_t *content, size_t length, uint32_t refusal, enum side side)
{
    struct fence file = fence_input(content, length, side);
    bool good = rack_check(file.bytes, file.length) == refusal;
    fence_close(&file);
    return good;
}

/* `table` is what a buffer holds that is long enough; nothing is written otherwise. */
static bool table_holds(const uint8_t *content, size_t length, const uint8_t *table,
                        uint32_t answer, size_t out_len, enum side side)
{
    struct fence file = fence_input(content, length, side);
    struct fence out = fence_open(out_len, side);
    bool good = rack_table(file.bytes, file.length, out.bytes, out.length) == answer;
    size_t written = answer == 0 ? TABLE_BYTES : 0;
    good = good && fence_untouched_from(&out, written) &&
           (written == 0 || memcmp(out.bytes, table, written) == 0);
    fence_close(&file);
    fence_close(&out);
    return good;
}

static const size_t OUT_LENGTHS[] = {0, 1, TABLE_BYTES - 1, TABLE_BYTES, TABLE_BYTES + 1, 200};

static bool file_holds(const uint8_t *content, size_t length, uint32_t refusal,
                       const uint8_t *table, enum side side)
{
    bool good = check_holds(content, length, refusal, side);
    for (size_t i = 0; i < sizeof OUT_LENGTHS / sizeof *OUT_LENGTHS; i++) {
        size_t out_len = OUT_LENGTHS[i];
        uint32_t answer = refusal == 0 && out_len < TABLE_BYTES ? 8 : refusal;
        good = good && table_holds(content, length, table, answer, out_len, side);
    }
    return good;
}

static void judge(const char *name, const uint8_t *content, size_t length, uint32_t refusal,
                  const uint8_t *table)
{
    tally(file_holds(content, length, refusal, table, AT_THE_START) &&
              file_holds(content, length, refusal, table, AT_THE_END),
          name);
}

/* The table of an accepted edit of the worked table. */
static void edited_table(const uint8_t file[WORKED_BYTES], uint8_t table[TABLE_BYTES])
{
    memset(table, 0, TABLE_BYTES);
    table[0] = file[4];
    table[1] = file[5];
    for (size_t at = RECORDS_AT; at < WORKED_BYTES; at += 2) {
        uint8_t number = file[at + file[16]];
        table[2 + number] = file[at + file[22]];
    }
}

static void judge_edits(void)
{
    for (size_t i = 0; i < sizeof EDITS / sizeof *EDITS; i++) {
        uint8_t file[WORKED_BYTES];
        uint8_t table[TABLE_BYTES] = {0};
        char name[100];
        memcpy(file, WORKED, sizeof file);
        file[EDITS[i].at] = EDITS[i].value;
        if (EDITS[i].refusal == 0) {
            edited_table(file, table);
        }
        snprintf(name, sizeof name, "byte %zu is %u", EDITS[i].at, EDITS[i].value);
        judge(name, file, sizeof file, EDITS[i].refusal, table);
    }
}

static void judge_prefixes(void)
{
    for (size_t length = 0; length < WORKED_BYTES; length++) {
        char name[100];
        snprintf(name, sizeof name, "first %zu bytes", length);
        judge(name, WORKED, length, length < 12 ? 1 : 4, NULL);
    }
}

/* The worked table with its records at the end of a long file. */
static void judge_long(const char *name, size_t length, uint32_t refusal, const uint8_t *table)
{
    uint8_t file[LONGEST + 1] = {0};
    size_t records = length - (WORKED_BYTES - RECORDS_AT);
    memcpy(file, WORKED, RECORDS_AT);
    file[8] = records & 0xFF;
    file[9] = records >> 8;
    memcpy(file + records, WORKED + RECORDS_AT, WORKED_BYTES - RECORDS_AT);
    judge(name, file, length, refusal, table);
}

/* 63 cards in records of 64 bytes; the number is the last byte of each and of the file. */
static void judge_full(void)
{
    enum { CARDS = 63, RECORD = 64 };
    uint8_t file[RECORDS_AT + CARDS * RECORD] = {0};
    uint8_t table[TABLE_BYTES] = {6, 1};
    memcpy(file, WORKED, RECORDS_AT);
    file[3] = CARDS;
    file[4] = 6;
    file[10] = RECORD;
    file[16] = RECORD - 1;
    file[22] = 0;
    for (uint8_t i = 0; i < CARDS; i++) {
        uint8_t *record = file + RECORDS_AT + i * RECORD;
        record[RECORD - 1] = CARDS - i;
        record[0] = i + 1;
        table[2 + CARDS - i] = i + 1;
    }
    judge("63 cards", file, sizeof file, 0, table);
    file[sizeof file - 1] = 64;
    judge("number 64 at k = 6", file, sizeof file, 7, NULL);
}

static void judge_name_twice(void)
{
    uint8_t file[WORKED_BYTES];
    memcpy(file, WORKED, sizeof file);
    memcpy(file + 18, "ANUM", 4);
    judge("ANUM twice", file, sizeof file, 5, NULL);
}

void guard_tables(void)
{
    static const uint8_t table[TABLE_BYTES] = {3, 1, [2 + 2] = 1, [2 + 5] = 2, [2 + 6] = 3};
    judge("worked table", WORKED, sizeof WORKED, 0, table);
    judge_edits();
    judge_prefixes();
    judge_long("8192 bytes", LONGEST, 0, table);
    judge_long("8193 bytes", LONGEST + 1, 1, table);
    judge_full();
    judge_name_twice();
}
