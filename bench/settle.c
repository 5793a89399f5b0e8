/* Settling through the C entry against a plain C function that does the same job, written for speed and with nothing proved.
 * usage: settle ROUNDS: the results are compared first; then the two take turns, and the best of ROUNDS counts. */
#include <stdint.h>
#include <stdio.h>
#include <stdlib.h>
#include <string.h>
#include <time.h>

#include "../laptop/rack.h"

enum { MOST = 66, LISTS = 32, TURNS = 200, COMPARED = 20000 };

typedef uint32_t settling(uint32_t m, const uint8_t *numbers, size_t numbers_len, uint8_t *stages, size_t stages_len, uint32_t start);

/* One stage: a bit is withdrawn below the highest line that carries 1 where the competitor has 0. */
static uint16_t stage(const uint16_t *numbers, size_t count, uint16_t lines)
{
    uint16_t joined = 0;
    for (size_t i = 0; i < count; i++) {
        uint16_t own = numbers[i], c = lines & (uint16_t)~own;
        c |= c >> 1;
        c |= c >> 2;
        c |= c >> 4;
        c |= c >> 8;
        joined |= own & (uint16_t)~c;
    }
    return joined;
}

/* How many of the numbers equal what the lines settled to. */
static uint16_t matches(const uint16_t *numbers, size_t count, uint16_t lines)
{
    uint16_t same = 0;
    for (size_t i = 0; i < count; i++) same = (uint16_t)(same + (numbers[i] == lines));
    return same;
}

static void put(uint8_t *entry, uint16_t lines)
{
    entry[0] = (uint8_t)lines;
    entry[1] = (uint8_t)(lines >> 8);
}

static __attribute__((noinline)) uint32_t peer(uint32_t m, const uint8_t *numbers, size_t numbers_len, uint8_t *stages, size_t stages_len, uint32_t start)
{
    uint16_t list[64], joined = 0, lines = (uint16_t)start, next;
    size_t count = numbers_len / 2;
    if (m == 0 || m > 12) return 121;
    if (count > 64) return 122;
    for (size_t i = 0; i < count; i++) {
        list[i] = (uint16_t)(numbers[2 * i] | numbers[2 * i + 1] << 8);
        joined |= list[i];
    }
    if (joined >> m) return 123;
    if (stages_len / 2 <= m) return 124;
    if (start >> m) return 125;
    uint32_t t = 0;
    put(stages, lines);
    while ((next = stage(list, count, lines)) != lines) {
        lines = next;
        put(stages + 2 * ++t, lines);
    }
    return t + 256u * matches(list, count, lines);
}

static uint64_t state = 88172645463325252u;

static uint32_t random_below(uint32_t limit)
{
    state ^= state << 13;
    state ^= state >> 7;
    state ^= state << 17;
    return (uint32_t)((state >> 20) % limit);
}

static void fill(uint8_t *numbers, size_t count, uint32_t limit)
{
    for (size_t i = 0; i < count; i++) put(numbers + 2 * i, (uint16_t)random_below(limit));
}

/* Every third call may be refused: m from 0 to 13, up to 66 numbers, a number or a start over the limit, a short buffer. */
static int same_results(void)
{
    uint8_t numbers[2 * MOST], ours[32], theirs[32];
    for (int i = 0; i < COMPARED; i++) {
        int wild = i % 3 == 0;
        uint32_t m = wild ? random_below(14) : 1 + random_below(12);
        size_t count = random_below(wild ? MOST : 65), room = wild ? random_below(30) : 2 * m + 2;
        uint32_t start = random_below((1u << m) << (wild && i % 4 == 0));
        fill(numbers, count, (1u << m) + (wild && i % 2));
        memset(ours, 0xa5, sizeof ours);
        memset(theirs, 0xa5, sizeof theirs);
        if (rack_settle(m, numbers, 2 * count, ours, room, start) != peer(m, numbers, 2 * count, theirs, room, start)) return 0;
        if (memcmp(ours, theirs, sizeof ours)) return 0;
    }
    return 1;
}

static uint8_t lists[LISTS][2 * MOST], stages[26];

/* Nanoseconds of one settling, over all lists and turns. Each list starts from 0, as it did before settling took a start, so that figures can be compared. */
static double once(settling *settle, uint32_t m, size_t count)
{
    struct timespec begun, ended;
    uint32_t sum = 0;
    clock_gettime(CLOCK_MONOTONIC, &begun);
    for (int turn = 0; turn < TURNS; turn++)
        for (int list = 0; list < LISTS; list++) sum += settle(m, lists[list], 2 * count, stages, sizeof stages, 0);
    clock_gettime(CLOCK_MONOTONIC, &ended);
    __asm__ volatile("" ::"r"(sum));
    return ((double)(ended.tv_sec - begun.tv_sec) * 1e9 + (double)(ended.tv_nsec - begun.tv_nsec)) / (TURNS * LISTS);
}

static void measure(uint32_t m, size_t count, int rounds)
{
    double ours = 1e18, theirs = 1e18;
    for (int list = 0; list < LISTS; list++) fill(lists[list], count, 1u << m);
    for (int round = 0; round < rounds; round++) {
        double a = once(rack_settle, m, count), b = once(peer, m, count);
        if (a < ours) ours = a;
        if (b < theirs) theirs = b;
    }
    printf("%5u %8zu %9.1f ns %9.1f ns %8.2f\n", m, count, ours, theirs, ours / theirs);
}

int main(int argc, char **argv)
{
    const struct {
        uint32_t m;
        size_t count;
    } shapes[] = {{12, 64}, {12, 63}, {12, 20}, {7, 8}, {4, 4}, {1, 1}, {12, 0}};
    int rounds = argc == 2 ? atoi(argv[1]) : 100;
    if (!same_results()) {
        fputs("settle: the peer settles otherwise\n", stderr);
        return 1;
    }
    printf("%5s %8s %12s %12s %8s\n", "lines", "numbers", "rack_settle", "peer", "ratio");
    for (size_t i = 0; i < sizeof shapes / sizeof *shapes; i++) measure(shapes[i].m, shapes[i].count, rounds);
    return 0;
}
