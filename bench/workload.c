/* Writes the benchmark's input: workload K N RULE LINES writes rack.tab (cards 1 to N) and trace (all cards ask, and each asks again when it lets
 * the bus go, so that every arbitration has all but none waiting). */
#include <stdint.h>
#include <stdio.h>
#include <stdlib.h>

enum { CARDS = 64 };

static unsigned k, n, rule, last;
static unsigned counts[CARDS];

/* All cards wait, so the winner is the card with the greatest competing number. */
static unsigned next_winner(void)
{
    unsigned best = 0, winner = 0;
    for (unsigned a = 1; a <= n; a++) {
        unsigned number = rule == 0 ? a : rule == 1 ? a + (a < last ? 1u << k : 0) : a + (counts[a] << k);
        if (number >= best) {
            best = number;
            winner = a;
        }
    }
    for (unsigned a = 1; a <= n; a++) counts[a]++;
    counts[winner] = 0;
    return last = winner;
}

static int write_table(void)
{
    const uint8_t head[24] = {1, 0, 2, (uint8_t)n, (uint8_t)k, (uint8_t)rule, 12, 0, 24, 0, 2, 0,
                              'A', 'N', 'U', 'M', 0, 1, 'S', 'L', 'O', 'T', 1, 1};
    FILE *tab = fopen("rack.tab", "wb");
    if (!tab) return 0;
    fwrite(head, 1, sizeof head, tab);
    for (unsigned a = 1; a <= n; a++) {
        fputc((int)a, tab);
        fputc((int)a, tab);
    }
    return fclose(tab) == 0;
}

int main(int argc, char **argv)
{
    if (argc != 5) return 2;
    k = (unsigned)atoi(argv[1]);
    n = (unsigned)atoi(argv[2]);
    rule = (unsigned)atoi(argv[3]);
    long lines = atol(argv[4]), at = 0;
    if (k < 1 || k > 6 || n < 1 || n >= 1u << k || rule > 2 || !write_table()) return 2;
    FILE *trace = fopen("trace", "wb");
    if (!trace) return 2;
    for (unsigned a = 1; a <= n; a++, at++) fprintf(trace, "Q %02u\n", a);
    for (; at + 3 <= lines; at += 3) {
        unsigned w = next_winner();
        fprintf(trace, "A 00\nR %02u\nQ %02u\n", w, w);
    }
    return fclose(trace) != 0;
}
