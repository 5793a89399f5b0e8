/* How much stack a settling takes, by painting: each call runs on a stack of its own that was filled with a pattern, and what is no longer
 * pattern afterwards was used. Counted from the caller's frame, so with the return address.
 * usage: stack LIMIT: fails where a settling takes more than LIMIT bytes. */
#include <stdint.h>
#include <stdio.h>
#include <stdlib.h>
#include <string.h>
#include <ucontext.h>

#include "../laptop/rack.h"

enum { STACK = 1 << 16, PAINT = 0xa5, MOST = 70 };

/* `lines::settle` behind an entry that only hands on what it is lent; bench/stack has it built. */
uint32_t settle_list(uint8_t m, const uint16_t *numbers, size_t numbers_len, uint16_t *stages, size_t stages_len, uint16_t start);

static uint8_t painted[STACK] __attribute__((aligned(64)));
static uint8_t *stood;
static ucontext_t caller, callee;

struct settling {
    uint32_t m;
    size_t numbers, stages; /* in bytes */
    uint16_t start;
};

/* Sizes that are settled, from 0 and from all lines set, and each refusal: m, 22 for 65 numbers, 23 for numbers of 12 lines on 4, 24 for half an entry
 * too few, 25 for a start of 13 lines. */
static const struct settling cases[] = {
    {12, 128, 26, 0}, {12, 0, 26, 0}, {1, 128, 4, 0}, {0, 128, 26, 0}, {13, 128, 26, 0}, {255, 128, 26, 0}, {12, 130, 26, 0}, {4, 128, 26, 0}, {12, 128, 25, 0},
    {12, 128, 26, 4095}, {12, 0, 26, 4095}, {1, 128, 4, 1}, {12, 128, 26, 4096}, {12, 128, 26, 65535},
};
enum { CASES = sizeof cases / sizeof *cases, WIDE = 7 };

static uint16_t numbers[MOST], stages[20];
static struct settling now;
static volatile uint32_t answer;

static void through_c(void)
{
    stood = __builtin_frame_address(0);
    answer = rack_settle(now.m, (uint8_t *)numbers, now.numbers, (uint8_t *)stages, now.stages, now.start);
}

static void on_a_list(void)
{
    stood = __builtin_frame_address(0);
    answer = settle_list((uint8_t)now.m, numbers, now.numbers / 2, stages, now.stages / 2, now.start);
}

static size_t used_by(void (*work)(void))
{
    memset(painted, PAINT, sizeof painted);
    getcontext(&callee);
    callee.uc_stack.ss_sp = painted;
    callee.uc_stack.ss_size = sizeof painted;
    callee.uc_link = &caller;
    makecontext(&callee, work, 0);
    swapcontext(&caller, &callee);
    uint8_t *deepest = painted;
    while (deepest < stood && *deepest == PAINT) deepest++;
    return (size_t)(stood - deepest);
}

/* Numbers that differ in every line, so that settling takes many stages. */
static void fill(uint32_t m)
{
    for (size_t i = 0; i < MOST; i++) numbers[i] = (uint16_t)((i * 2654435761u >> 7) & ((1u << (m > 12 ? 12 : m)) - 1));
}

/* The number of cases over the limit. */
static int measure(const char *name, void (*work)(void), size_t limit)
{
    size_t worst = 0;
    int failed = 0;
    for (size_t i = 0; i < CASES; i++) {
        now = cases[i];
        fill(i == WIDE ? 12 : now.m);
        size_t used = used_by(work);
        if (used > worst) worst = used;
        failed += used > limit;
    }
    printf("%s: at most %zu bytes of stack over %d cases, limit %zu\n", name, worst, CASES, limit);
    return failed;
}

int main(int argc, char **argv)
{
    size_t limit = argc == 2 ? (size_t)atoi(argv[1]) : 512;
    int failed = measure("rack_settle", through_c, limit) + measure("lines::settle", on_a_list, limit);
    printf("%d passed, %d failed\n", 2 * CASES - failed, failed);
    return failed != 0;
}
