#include "clones.h"

#include "times.h"

/* The lines at which more than one card showed a number. */
struct clone {
    size_t times;
    size_t first;
    size_t most; /* the first of those at which the most cards did */
};

static bool shows_clone(const struct event *event)
{
    return event->matches > 1;
}

static void note_clone(struct clone *clone, const struct listing *listing, size_t line)
{
    if (clone->times++ == 0) {
        clone->first = clone->most = line;
    }
    if (event_at(listing, line)->matches > event_at(listing, clone->most)->matches) {
        clone->most = line;
    }
}

static void print_clone(FILE *file, const struct inquiry *inquiry, const struct clone *clone)
{
    const struct event *first = event_at(&inquiry->listing, clone->first);
    fputs("*** CLONED CARD *** ", file);
    print_times(file, clone->times);
    fprintf(file, ", first at line %zu: %u cards show number %u", clone->first, first->matches,
            first->winner);
    if (clone->most != clone->first) {
        fprintf(file, ", and %u at line %zu",
                event_at(&inquiry->listing, clone->most)->matches, clone->most);
    }
    fprintf(file, ". The table has it in slot %u. Look for the clone.\n",
            inquiry->table.slot_of[first->winner]);
}

static void note_clones(struct clone clones[NUMBERS], const struct listing *listing)
{
    for (size_t line = 1; line <= listing->lines; line++) {
        const struct event *event = event_at(listing, line);
        if (shows_clone(event)) {
            note_clone(&clones[event->winner], listing, line);
        }
    }
}

bool print_clones(FILE *file, const struct inquiry *inquiry)
{
    struct clone clones[NUMBERS] = {{.times = 0}};
    bool some = false;
    note_clones(clones, &inquiry->listing);
    for (unsigned number = 1; number < NUMBERS; number++) {
        if (clones[number].times > 0) {
            print_clone(file, inquiry, &clones[number]);
            some = true;
        }
    }
    return some;
}

unsigned first_cloned(const struct listing *listing)
{
    size_t line = 1;
    while (line <= listing->lines && !shows_clone(event_at(listing, line))) {
        line++;
    }
    return line <= listing->lines ? event_at(listing, line)->winner : 0;
}
