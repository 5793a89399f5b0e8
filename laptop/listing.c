#include "listing.h"

#include <stdlib.h>
#include <string.h>

#include "fields.h"
#include "numbers.h"
#include "say.h"

/* Where the fields of a line stand: event, answer, winner, settled lines, stages, matches. */
static const char shape[] = ".... 00 00 0000 00 00\n";
static const char old_shape[] = ".... 00 00 0000 00\n"; /* from before there were matches */
enum {
    LINE_BYTES = sizeof shape - 1,
    OLD_LINE_BYTES = sizeof old_shape - 1,
    EVENT_AT = 0,
    EVENT_BYTES = 4,
    NUMBER_AT = 2,
    ANSWER_AT = 5,
    WINNER_AT = 8,
    SETTLED_AT = 11,
    STAGES_AT = 16,
    MATCHES_AT = 19,
};

static bool reports_nothing(const char *line)
{
    return number_at(line, WINNER_AT) == 0 && number_at(line, SETTLED_AT) == 0 &&
           number_at(line, STAGES_AT) == 0 && number_at(line, MATCHES_AT) == 0;
}

/* The refusal of a line that ends a listing, or 0 if it is not such a line. */
static unsigned ending(const char *line)
{
    unsigned answer = (unsigned)number_at(line, ANSWER_AT);
    bool table = memcmp(line + EVENT_AT, "tab.", EVENT_BYTES) == 0 && answer >= 1 && answer <= 7;
    bool trace = memcmp(line + EVENT_AT, "----", EVENT_BYTES) == 0 && answer == 18;
    return (table || trace) && reports_nothing(line) ? answer : 0;
}

static bool read_event(const char *line, struct event *event)
{
    if (memchr("QAR", line[0], 3) == NULL || line[1] != ' ' || !is_digit(line[2]) ||
        !is_digit(line[3])) {
        return false;
    }
    event->letter = line[0];
    event->number = (uint8_t)number_at(line, NUMBER_AT);
    event->answer = (uint8_t)number_at(line, ANSWER_AT);
    event->winner = (uint8_t)number_at(line, WINNER_AT);
    event->matches = (uint8_t)number_at(line, MATCHES_AT);
    bool known = event->answer == 0 || (event->answer >= 11 && event->answer <= 17);
    bool wins = event->letter == 'A' && event->answer == 0;
    return known && (event->letter != 'A' || event->number == 0) &&
           (wins ? event->winner != 0 : reports_nothing(line));
}

static void append(struct listing *listing, size_t *room, struct event event)
{
    if (listing->lines == *room) {
        *room = *room == 0 ? 1024 : 2 * *room;
        struct event *more = realloc(listing->events, *room * sizeof event);
        if (more == NULL) {
            bad_input("no memory for more than %zu listing lines", listing->lines);
        }
        listing->events = more;
    }
    listing->events[listing->lines++] = event;
}

/* Takes one more line into the listing; false if it cannot stand there. */
static bool take_line(struct listing *listing, size_t *room, const char *line)
{
    struct event event;
    if (!has_shape(line, shape, LINE_BYTES) || listing->refusal != 0) {
        return false;
    }
    if (read_event(line, &event)) {
        event.bus = next_bus(bus_after(listing, listing->lines), &event);
        append(listing, room, event);
        return true;
    }
    listing->refusal = ending(line);
    bool alone = listing->refusal == 18 || listing->lines == 0;
    return listing->refusal != 0 && alone;
}

/* What is wrong with bytes that are no line of a listing. */
static const char *fault_of(const char *line, size_t bytes)
{
    if (bytes >= OLD_LINE_BYTES && has_shape(line, old_shape, OLD_LINE_BYTES)) {
        return "comes from an older racktrace, without the two digits that tell of cloned cards: "
               "please print the listing again with the racktrace that belongs to this racklap";
    }
    return "is none: expected one like A 00 00 06 0006 02 01";
}

struct listing read_listing(FILE *stream)
{
    struct listing listing = {.lines = 0};
    char line[LINE_BYTES];
    size_t room = 0;
    size_t whole = 0; /* lines that were read and can stand where they stand */
    size_t bytes = fread(line, 1, LINE_BYTES, stream);
    while (bytes == LINE_BYTES && take_line(&listing, &room, line)) {
        whole++;
        bytes = fread(line, 1, LINE_BYTES, stream);
    }
    if (ferror(stream)) {
        free_listing(&listing);
        bad_input("cannot read the listing from standard input");
    }
    if (bytes > 0) {
        free_listing(&listing);
        bad_input("listing line %zu %s", whole + 1, fault_of(line, bytes));
    }
    return listing;
}

void free_listing(struct listing *listing)
{
    free(listing->events);
    listing->events = NULL;
}

const struct event *event_at(const struct listing *listing, size_t line)
{
    return &listing->events[line - 1];
}

bool is_done(const struct event *event, char letter, unsigned number)
{
    return event->letter == letter && event->number == number && event->answer == 0;
}

void print_ending(FILE *file, const struct listing *listing)
{
    if (listing->refusal != 0) {
        fprintf(file, "The listing ends at line %zu with %u: %s (racklap explain %u says more).\n",
                listing->lines + 1, listing->refusal, meaning_of(listing->refusal),
                listing->refusal);
    }
}
