/* racklap settle: the lines after each stage, whether cards show the same number, how many stages
 * there can be, and who withdraws what. */
#include <limits.h>
#include <stdio.h>

#include "bounds.h"
#include "commands.h"
#include "say.h"
#include "settling.h"
#include "vcd.h"

static void print_binary(unsigned value, uint32_t m)
{
    for (uint32_t line = m; line-- > 0;) {
        putchar((value >> line & 1) != 0 ? '1' : '0');
    }
}

static void print_stages(const struct settling *settling)
{
    printf("stage  value  lines, line %u left\n", settling->m - 1);
    for (uint32_t stage = 0; stage <= settling->t; stage++) {
        printf("%5u  %5u  ", stage, lines_after(settling, stage));
        print_binary(lines_after(settling, stage), settling->m);
        putchar('\n');
    }
    printf("settled at %u after t = %u\n", lines_after(settling, settling->t), settling->t);
}

/* Names the number to look for where more than one card shows it. */
static void print_clones(const struct settling *settling)
{
    unsigned settled = lines_after(settling, settling->t);
    if (settling->matches > 1) {
        printf("%u of the %zu numbers are %u: %u cards show %u, look for the clone\n",
               settling->matches, settling->count, settled, settling->matches, settled);
    }
}

/* Prints "line 1" or "lines 3, 1", the most significant first. */
static void print_lines(unsigned set, uint32_t m)
{
    printf("%s", (set & (set - 1)) == 0 ? "line" : "lines");
    const char *before = " ";
    for (uint32_t line = m; line-- > 0;) {
        if ((set >> line & 1) != 0) {
            printf("%s%u", before, line);
            before = ", ";
        }
    }
}

static void print_change(const struct settling *settling, uint32_t stage, unsigned own)
{
    unsigned now = withdrawn(own, lines_after(settling, stage - 1));
    unsigned before = stage == 1 ? 0 : withdrawn(own, lines_after(settling, stage - 2));
    unsigned again = before & ~now;
    if (now != 0) {
        printf("stage %u: %u withdraws ", stage, own);
        print_lines(now, settling->m);
        putchar('\n');
    }
    if (again != 0) {
        printf("stage %u: %u applies ", stage, own);
        print_lines(again, settling->m);
        printf(" again\n");
    }
}

static void print_changes(const struct settling *settling)
{
    for (uint32_t stage = 1; stage <= settling->t; stage++) {
        for (size_t i = 0; i < settling->count; i++) {
            print_change(settling, stage, competitor(settling, i));
        }
    }
}

int settle_command(struct words words)
{
    const char *vcd = take_file(&words, "--vcd");
    const char *from = take_value(&words, "--from", "a number");
    expect_words(&words, 1, INT_MAX, "settle M n1 n2 .. [--from START] [--vcd FILE]");
    uint32_t m = number_word(words.word[0], UINT32_MAX);
    uint32_t start = from == NULL ? 0 : number_word(from, UINT32_MAX);
    struct settling settling = settle(m, start, (size_t)words.count - 1, words.word + 1);
    print_stages(&settling);
    print_clones(&settling);
    print_bounds(&settling);
    print_changes(&settling);
    finish_output();
    if (vcd != NULL) {
        write_vcd(&settling, vcd);
    }
    return ALL_WELL;
}
