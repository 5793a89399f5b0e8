/* A random rack and a random trace: rackgen SEED rack.tab trace [full]. Prints the slots of the
 * cards. A full rack has 63 of them, and a longer trace.
 *
 * The generator does not know who wins, so it releases by sweeping over all cards: the holder's
 * release is done, that of a card elected to follow if it comes later, and all others are refused,
 * which a listing shows too. Every second arbitration has no sweep behind it, so that the next one
 * finds the bus held and elects. */
#include <stdbool.h>
#include <stdint.h>
#include <stdio.h>
#include <stdlib.h>

static uint64_t state;

static unsigned below(unsigned bound)
{
    state ^= state << 13;
    state ^= state >> 7;
    state ^= state << 17;
    return (unsigned)((state >> 33) % bound);
}

struct rack {
    unsigned k, rule, cards;
    unsigned number[63], slot[63];
};

/* The first `count` entries of a random order of 1 to `most`. */
static void draw(unsigned *entries, unsigned count, unsigned most)
{
    unsigned all[63];
    for (unsigned i = 0; i < most; i++) {
        all[i] = i + 1;
    }
    for (unsigned i = 0; i < count; i++) {
        unsigned j = i + below(most - i);
        entries[i] = all[j];
        all[j] = all[i];
    }
}

static struct rack random_rack(void)
{
    struct rack rack = {.k = 1 + below(6), .rule = below(5)};
    unsigned most = (1u << rack.k) - 1;
    rack.cards = 1 + below(below(4) != 0 && most > 8 ? 8 : most);
    draw(rack.number, rack.cards, most);
    draw(rack.slot, rack.cards, 63);
    return rack;
}

static struct rack full_rack(void)
{
    struct rack rack = {.k = 6, .rule = below(5), .cards = 63};
    draw(rack.number, rack.cards, 63);
    draw(rack.slot, rack.cards, 63);
    return rack;
}

static void write_table(const struct rack *rack, FILE *file)
{
    fprintf(file, "%c%c%c%c%c%c", 1, 0, 2, (int)rack->cards, (int)rack->k, (int)rack->rule);
    fprintf(file, "%c%c%c%c%c%cANUM%c%cSLOT%c%c", 12, 0, 24, 0, 2, 0, 0, 1, 1, 1);
    for (unsigned i = 0; i < rack->cards; i++) {
        fprintf(file, "%c%c", (int)rack->number[i], (int)rack->slot[i]);
    }
}

static void sweep(const struct rack *rack, FILE *file)
{
    for (unsigned i = 0; i < rack->cards; i++) {
        fprintf(file, "R %02u\n", rack->number[i]);
    }
}

static void write_event(const struct rack *rack, FILE *file)
{
    unsigned kind = below(10);
    if (kind < 5) {
        fprintf(file, "Q %02u\n", rack->number[below(rack->cards)]);
    } else if (kind < 9) {
        fprintf(file, "A 00\n");
        if (kind < 7) {
            sweep(rack, file);
        }
    } else {
        fprintf(file, "%c %02u\n", below(2) == 0 ? 'Q' : 'R', below(100));
    }
}

static FILE *opened(const char *name)
{
    FILE *file = fopen(name, "wb");
    if (file == NULL) {
        perror(name);
        exit(1);
    }
    return file;
}

int main(int argc, char **argv)
{
    if (argc != 4 && argc != 5) {
        fprintf(stderr, "usage: rackgen SEED rack.tab trace [full]\n");
        return 2;
    }
    state = strtoull(argv[1], NULL, 10) * 0x9e3779b97f4a7c15u | 1;
    bool full = argc == 5;
    struct rack rack = full ? full_rack() : random_rack();
    FILE *table = opened(argv[2]);
    write_table(&rack, table);
    fclose(table);
    FILE *trace = opened(argv[3]);
    for (unsigned events = full ? 3000 : below(200); events > 0; events--) {
        write_event(&rack, trace);
    }
    if (below(4) == 0) {
        fprintf(trace, "A 01\n"); /* malformed: the listing ends here */
    }
    fclose(trace);
    for (unsigned i = 0; i < rack.cards; i++) {
        printf("%u\n", rack.slot[i]);
    }
    return 0;
}
