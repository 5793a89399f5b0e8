/* Reads what racklap settle printed and judges it line by line:
 * withdrawals M START n1 n2 .. < output.
 *
 * The stages are taken as printed. Clones are counted among the numbers. The bounds are worked out
 * anew from the binary digits of the greatest number. Who withdraws is worked out anew from the
 * sentence of the scope: a competitor applies 0 to line j if some line above j carries 1 where its
 * own bit is 0. */
#include <stdbool.h>
#include <stdio.h>
#include <stdlib.h>
#include <string.h>

static unsigned m, start, t;
static unsigned stages[64];

static void expect(const char *row)
{
    char got[256] = "";
    if (fgets(got, sizeof got, stdin) == NULL || strcmp(got, row) != 0) {
        fprintf(stderr, "withdrawals: expected %sgot %s\n", row, got);
        exit(1);
    }
}

static bool withdraws(unsigned own, unsigned lines, unsigned j)
{
    bool conflict = false;
    for (unsigned above = j + 1; above < m; above++) {
        conflict = conflict || ((lines >> above & 1) == 1 && (own >> above & 1) == 0);
    }
    return (own >> j & 1) == 1 && conflict;
}

static void read_stages(void)
{
    char row[256];
    sprintf(row, "stage  value  lines, line %u left\n", m - 1);
    expect(row);
    unsigned stage;
    char binary[16];
    while (scanf("%u %u %12[01]\n", &stage, &stages[t], binary) == 3) {
        if (stage != t || strlen(binary) != m || strtoul(binary, NULL, 2) != stages[t] || t > 12 ||
            stages[0] != start) {
            fprintf(stderr, "withdrawals: stage %u is wrong\n", t);
            exit(1);
        }
        t++;
    }
    t--;
    sprintf(row, "settled at %u after t = %u\n", stages[t], t);
    expect(row);
}

/* A row names the settled value where more than one competitor has it for its number. */
static void expect_clones(int count, char **numbers)
{
    char row[256];
    int clones = 0;
    for (int i = 0; i < count; i++) {
        clones += (unsigned)atoi(numbers[i]) == stages[t];
    }
    if (clones > 1) {
        sprintf(row, "%d of the %d numbers are %u: %d cards show %u, look for the clone\n", clones,
                count, stages[t], clones, stages[t]);
        expect(row);
    }
}

/* Writes the digits of a number without leading zeros, with a blank between two runs: how many runs
 * there are. */
static unsigned write_runs(char *runs, unsigned number)
{
    unsigned count = 0;
    char last = '0';
    for (unsigned j = m; j-- > 0;) {
        char digit = (number >> j & 1) == 1 ? '1' : '0';
        if (digit != last && count++ > 0) {
            *runs++ = ' ';
        }
        last = digit;
        if (count > 0) {
            *runs++ = digit;
        }
    }
    *runs = '\0';
    return count;
}

static void remove_blanks(char *to, const char *from)
{
    for (; *from != '\0'; from++) {
        if (*from != ' ') {
            *to++ = *from;
        }
    }
    *to = '\0';
}

static const char *plural(unsigned count)
{
    return count == 1 ? "" : "s";
}

/* Writes what the start adds to the runs, from the sentence of document 02: one stage more, except
 * where the greatest number has its top line set. From 0 nothing is added. */
static unsigned write_start(char *words, unsigned greatest)
{
    bool more = start > 0 && greatest < 1u << (m - 1);
    *words = '\0';
    if (start > 0) {
        sprintf(words, ", %s more for the start, as line %u is %d in it", more ? "and one" : "none",
                m - 1, more ? 0 : 1);
    }
    return more ? 1 : 0;
}

static void expect_at_most(unsigned most, const char *row)
{
    expect(row);
    if (t > most) {
        fprintf(stderr, "withdrawals: t = %u is over %s", t, row);
        exit(1);
    }
}

static void expect_greatest(unsigned greatest)
{
    char runs[32], digits[32], binary[64] = "", shown[64] = "", more[64], row[256];
    unsigned count = write_runs(runs, greatest);
    unsigned most = count + write_start(more, greatest);
    remove_blanks(digits, runs);
    if (count > 0) {
        sprintf(binary, " = %s", digits);
    }
    if (count > 1) {
        sprintf(shown, " (%s)", runs);
    }
    sprintf(row, "at most %u stage%s with greatest number %u%s: %u run%s%s%s\n", most, plural(most),
            greatest, binary, count, plural(count), shown, more);
    expect_at_most(most, row);
}

static void expect_lines_bound(void)
{
    char row[256];
    sprintf(row, "at most %u stage%s on %u line%s\n", m, plural(m), m, plural(m));
    expect_at_most(m, row);
}

/* Expects "stage S: N VERB line(s) a, b AFTER" if any of the lines is in the set. */
static void expect_lines(unsigned stage, unsigned own, const char *verb, const bool set[12],
                         const char *after)
{
    char list[128] = "";
    unsigned count = 0;
    for (unsigned j = m; j-- > 0;) {
        if (set[j]) {
            sprintf(list + strlen(list), "%s%u", count++ == 0 ? "" : ", ", j);
        }
    }
    if (count > 0) {
        char row[256];
        sprintf(row, "stage %u: %u %s %s %s%s\n", stage, own, verb, count == 1 ? "line" : "lines",
                list, after);
        expect(row);
    }
}

static void expect_competitor(unsigned stage, unsigned own)
{
    bool now[12] = {false};
    bool again[12] = {false};
    for (unsigned j = 0; j < m; j++) {
        now[j] = withdraws(own, stages[stage - 1], j);
        again[j] = stage > 1 && withdraws(own, stages[stage - 2], j) && !now[j];
    }
    expect_lines(stage, own, "withdraws", now, "");
    expect_lines(stage, own, "applies", again, " again");
}

static unsigned greatest_of(int count, char **numbers)
{
    unsigned greatest = 0;
    for (int i = 0; i < count; i++) {
        unsigned number = (unsigned)atoi(numbers[i]);
        greatest = number > greatest ? number : greatest;
    }
    return greatest;
}

int main(int argc, char **argv)
{
    if (argc < 3) {
        fprintf(stderr, "usage: withdrawals M START n1 n2 .. < output\n");
        return 2;
    }
    m = (unsigned)atoi(argv[1]);
    start = (unsigned)atoi(argv[2]);
    read_stages();
    expect_clones(argc - 3, argv + 3);
    if (argc > 3) {
        expect_greatest(greatest_of(argc - 3, argv + 3));
    } else {
        expect_at_most(1, "at most 1 stage without a competing number\n");
    }
    expect_lines_bound();
    for (unsigned stage = 1; stage <= t; stage++) {
        for (int i = 3; i < argc; i++) {
            expect_competitor(stage, (unsigned)atoi(argv[i]));
        }
    }
    if (getchar() != EOF) {
        fprintf(stderr, "withdrawals: a row too many\n");
        return 1;
    }
    return 0;
}
