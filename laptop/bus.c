#include "bus.h"

#include "listing.h"

static bool releases(const struct event *event)
{
    return event->letter == 'R' && event->answer == 0;
}

struct bus next_bus(struct bus bus, const struct event *event)
{
    if (releases(event)) {
        return (struct bus){.holder = bus.elected};
    }
    if (event->winner == 0) {
        return bus;
    }
    return bus.holder == 0 ? (struct bus){.holder = event->winner}
                           : (struct bus){.holder = bus.holder, .elected = event->winner};
}

struct bus bus_after(const struct listing *listing, size_t line)
{
    return line == 0 ? (struct bus){.holder = 0} : event_at(listing, line)->bus;
}

bool is_election(const struct listing *listing, size_t line)
{
    return event_at(listing, line)->winner != 0 && bus_after(listing, line).elected != 0;
}

size_t release_after(const struct listing *listing, size_t line)
{
    do {
        line++;
    } while (line <= listing->lines && !releases(event_at(listing, line)));
    return line <= listing->lines ? line : 0;
}

size_t held_from(const struct listing *listing, size_t line)
{
    return is_election(listing, line) ? release_after(listing, line) : line;
}
