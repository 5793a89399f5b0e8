#include "fit.h"

#include "say.h"

#define DOUBT "is it this rack's table and listing, whole?"

/* Why this event cannot have been done, or null. */
static const char *misfit(const bool waits[NUMBERS], struct bus bus, const struct table *table,
                          const struct event *event)
{
    unsigned number = event->letter == 'A' ? event->winner : event->number;
    if (!has_number(table, number)) {
        return "is not in the table";
    }
    switch (event->letter) {
    case 'Q':
        return waits[number]           ? "asks though it waits already"
               : bus.elected == number ? "asks though it is elected already"
                                       : NULL;
    case 'A':
        return !waits[number]        ? "wins though it does not wait"
               : bus.elected != 0    ? "wins though a card is elected already"
               : event->matches == 0 ? "wins though no card shows the settled lines"
                                     : NULL;
    default:
        return bus.holder != number ? "releases a bus that it does not hold" : NULL;
    }
}

static void follow(bool waits[NUMBERS], const struct event *event)
{
    switch (event->letter) {
    case 'Q':
        waits[event->number] = true;
        break;
    case 'A':
        waits[event->winner] = false;
    }
}

/* Racks without elections answer 13 to every arbitration on a held bus. What is said of 13 does not
 * hold for their listings. */
static void check_closed(size_t line, struct bus bus, const struct event *event)
{
    if (event->answer == 13 && bus.elected == 0) {
        bad_input("listing line %zu: refused with 13 though no card is elected: " DOUBT, line);
    }
}

void check_fit(const struct listing *listing, const struct table *table)
{
    bool waits[NUMBERS] = {false};
    for (size_t line = 1; line <= listing->lines; line++) {
        const struct event *event = event_at(listing, line);
        struct bus bus = bus_after(listing, line - 1);
        check_closed(line, bus, event);
        if (event->answer != 0) {
            continue;
        }
        const char *why = misfit(waits, bus, table, event);
        if (why != NULL) {
            bad_input("listing line %zu: number %u %s: " DOUBT, line,
                      event->letter == 'A' ? event->winner : event->number, why);
        }
        follow(waits, event);
    }
}
