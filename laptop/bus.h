/* Who has the bus, as a listing tells it: free, held, or held with a card elected to follow. */
#ifndef BUS_H
#define BUS_H

#include <stdbool.h>
#include <stddef.h>
#include <stdint.h>

struct event;
struct listing;

struct bus {
    uint8_t holder;  /* its number, 0 where the bus is free */
    uint8_t elected; /* the number of the card that follows the holder, 0 if none is elected */
};

/* The bus after an event. It takes all events from the first on to know it: no line says whether
 * its winner is granted the bus or elected. */
struct bus next_bus(struct bus bus, const struct event *event);

/* The bus after this line; line 0 is the fresh rack. */
struct bus bus_after(const struct listing *listing, size_t line);

/* Whether a card is elected at this line: it wins while the bus is held. */
bool is_election(const struct listing *listing, size_t line);

/* The next release after this line, 0 if the listing has none. */
size_t release_after(const struct listing *listing, size_t line);

/* The line from which the card that wins at this line holds the bus: this line for a grant, for an
 * election the release that hands the bus on, or 0 if the listing has none. */
size_t held_from(const struct listing *listing, size_t line);

#endif
