/* The listing that racktrace prints, one line an event. */
#ifndef LISTING_H
#define LISTING_H

#include <stdbool.h>
#include <stddef.h>
#include <stdint.h>
#include <stdio.h>

#include "bus.h"

struct event {
    char letter;     /* Q, A or R */
    uint8_t number;  /* of the card that asks or releases, 0 for A */
    uint8_t answer;  /* 0 where the event was done */
    uint8_t winner;  /* 0 but for an arbitration that was done: a grant, or an election */
    uint8_t matches; /* how many cards showed the settled lines, 0 where winner is 0 */
    struct bus bus;  /* after it, with all events before it */
};

/* Lines are counted from 1, as a technician counts them. */
struct listing {
    struct event *events;
    size_t lines;     /* that carry an event */
    unsigned refusal; /* of the last line, tab. or ----, that carries none; 0 if there is none */
};

/* Reads a listing to its end. Ends with bad input, naming the line, where a line is none. */
struct listing read_listing(FILE *stream);

void free_listing(struct listing *listing);

const struct event *event_at(const struct listing *listing, size_t line);

/* Whether the event is one that this card asked for, and was done. */
bool is_done(const struct event *event, char letter, unsigned number);

/* Prints what ended the listing, if it was a refusal. */
void print_ending(FILE *file, const struct listing *listing);

#endif
