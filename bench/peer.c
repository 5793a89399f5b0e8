/* The C peer of racktrace for the benchmark: the same input and output, written for speed and with nothing proved.
 * It trusts its table (number width, rule and numbers of a saved file) and checks each trace line and event as documents 01 and 02 say. */
#include <stdint.h>
#include <stdio.h>
#include <string.h>
#include <unistd.h>

enum { CARDS = 64, CHUNK = 1 << 16, LINE = 5, ROW = 22 };

static uint8_t slots[CARDS], waiting[CARDS], counts[CARDS];
static unsigned k, rule, last, waiters;
static unsigned holder, elected; /* 0 where the bus is free, and where no card is elected to follow */
static uint16_t kept; /* what the lines settled to last; the next settling starts from it */

struct outcome {
    unsigned answer, winner, lines, stages, matches;
};

static struct outcome refused(unsigned answer)
{
    return (struct outcome){.answer = answer};
}

static int load(void)
{
    static uint8_t file[8193];
    FILE *tab = fopen("rack.tab", "rb");
    if (!tab) return 0;
    size_t len = fread(file, 1, sizeof file, tab);
    fclose(tab);
    if (len < 24 || len != 24u + 2u * file[3]) return 0;
    k = file[4];
    rule = file[5];
    for (size_t at = 24; at < len; at += 2) slots[file[at] & 63] = file[at + 1];
    return 1;
}

/* One stage: a bit is withdrawn below the highest line that carries 1 where the competitor has 0. */
static uint16_t stage(const uint16_t *numbers, uint16_t lines)
{
    uint16_t joined = 0;
    for (int i = 0; i < CARDS; i++) {
        uint16_t own = numbers[i], c = lines & (uint16_t)~own;
        c |= c >> 1;
        c |= c >> 2;
        c |= c >> 4;
        c |= c >> 8;
        joined |= own & (uint16_t)~c;
    }
    return joined;
}

/* How many cards show what the lines settled to. A card that does not compete shows 0, and the lines never settle to that. */
static uint16_t matches(const uint16_t *numbers, uint16_t lines)
{
    uint16_t count = 0;
    for (int i = 0; i < CARDS; i++) count = (uint16_t)(count + (numbers[i] == lines));
    return count;
}

static void show_numbers(uint16_t *numbers)
{
    const uint16_t span = (uint16_t)(1u << k);
    if (rule == 0)
        for (int i = 0; i < CARDS; i++) numbers[i] = (uint16_t)(-(int)waiting[i] & i);
    else if (rule == 1)
        for (int i = 0; i < CARDS; i++)
            numbers[i] = (uint16_t)(-(int)waiting[i] & (i + ((unsigned)i < last ? span : 0)));
    else
        for (int i = 0; i < CARDS; i++) numbers[i] = (uint16_t)(-(int)waiting[i] & (i + span * counts[i]));
}

static int some_loser_full(unsigned winner)
{
    const uint8_t full = (uint8_t)((1u << k) - 1);
    int some = 0;
    for (unsigned i = 0; i < CARDS; i++) some |= (i != winner) & waiting[i] & (counts[i] >= full);
    return some;
}

static struct outcome arbitrate(void)
{
    if (elected) return refused(13);
    if (!waiters) return refused(14);
    uint16_t numbers[CARDS], lines = kept, next;
    show_numbers(numbers);
    unsigned t = 0;
    while ((next = stage(numbers, lines)) != lines) {
        lines = next;
        t++;
    }
    unsigned winner = lines & ((1u << k) - 1);
    if (rule == 2) {
        if (some_loser_full(winner)) return refused(16);
        for (int i = 0; i < CARDS; i++) counts[i] = (uint8_t)(counts[i] + waiting[i]);
        counts[winner] = 0;
    }
    kept = lines;
    waiting[winner] = 0;
    waiters--;
    last = winner;
    if (holder) elected = winner;
    else holder = winner;
    return (struct outcome){0, winner, lines, t, matches(numbers, lines)};
}

static struct outcome request(unsigned a)
{
    if (a >= CARDS || !slots[a]) return refused(11);
    if (waiting[a] || a == elected) return refused(12);
    waiting[a] = 1;
    counts[a] = 0;
    waiters++;
    return (struct outcome){0};
}

static struct outcome release(unsigned a)
{
    if (a >= CARDS || !slots[a]) return refused(11);
    if (holder != a) return refused(15);
    holder = elected;
    elected = 0;
    return (struct outcome){0};
}

/* A row is made where its event is answered, so that what is 0 there is written as such: by itself gcc stops doing so at 22 bytes. */
static inline __attribute__((always_inline)) void put2(uint8_t *out, unsigned x)
{
    out[0] = (uint8_t)('0' + x / 10 % 10);
    out[1] = (uint8_t)('0' + x % 10);
}

static inline __attribute__((always_inline)) void put_row(uint8_t *out, const uint8_t *event, struct outcome o)
{
    memcpy(out, event, 4);
    out[4] = out[7] = out[10] = out[15] = out[18] = ' ';
    put2(out + 5, o.answer);
    put2(out + 8, o.winner);
    put2(out + 11, o.lines / 100);
    put2(out + 13, o.lines);
    put2(out + 16, o.stages);
    put2(out + 19, o.matches);
    out[21] = '\n';
}

/* Answers one line; 0 where it is malformed. */
static int answer(const uint8_t *line, uint8_t *out)
{
    unsigned tens = line[2] - '0', ones = line[3] - '0', a = tens * 10 + ones;
    if (line[1] != ' ' || tens > 9 || ones > 9 || line[4] != '\n') return 0;
    if (line[0] == 'Q') put_row(out, line, request(a));
    else if (line[0] == 'R') put_row(out, line, release(a));
    else if (line[0] == 'A' && a == 0) put_row(out, line, arbitrate());
    else return 0;
    return 1;
}

static int write_all(const uint8_t *out, size_t len)
{
    while (len) {
        ssize_t n = write(STDOUT_FILENO, out, len);
        if (n <= 0) return 0;
        out += n;
        len -= (size_t)n;
    }
    return 1;
}

int main(void)
{
    static uint8_t in[CHUNK], out[CHUNK / LINE * ROW + ROW];
    size_t kept = 0;
    ssize_t got;
    if (!load()) return 1;
    while ((got = read(STDIN_FILENO, in + kept, sizeof in - kept)) > 0) {
        size_t len = kept + (size_t)got, at = 0, to = 0;
        int good = 1;
        for (; at + LINE <= len && good; at += LINE, to += ROW) good = answer(in + at, out + to);
        if (!good) memcpy(out + to - ROW, "---- 18 00 0000 00 00\n", ROW);
        if (!write_all(out, to) || !good) return !good;
        kept = len - at;
        memmove(in, in + at, kept);
    }
    return kept && !write_all((const uint8_t *)"---- 18 00 0000 00 00\n", ROW);
}
