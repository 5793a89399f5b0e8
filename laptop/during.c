#include "during.h"

#include "bus.h"
#include "numbers.h"

/* Refused arbitrations with one answer and nothing else to tell in between: told in one row. */
struct streak {
    size_t first;
    size_t last;
    size_t count;
    unsigned answer;
};

static void print_reason(unsigned answer)
{
    printf(" with %u: %s\n", answer, meaning_of(answer));
}

static void end_streak(struct streak *streak)
{
    if (streak->count == 0) {
        return;
    }
    if (streak->count == 1) {
        printf("  line %zu: arbitration refused", streak->first);
    } else {
        printf("  lines %zu to %zu: arbitration refused %zu times", streak->first, streak->last,
               streak->count);
    }
    print_reason(streak->answer);
    streak->count = 0;
}

static void lengthen_streak(struct streak *streak, size_t line, unsigned answer)
{
    if (streak->count != 0 && streak->answer != answer) {
        end_streak(streak);
    }
    if (streak->count == 0) {
        *streak = (struct streak){.first = line, .answer = answer};
    }
    streak->last = line;
    streak->count++;
}

/* Prints when the bus that is held at this line is released. */
static void print_release(const struct listing *listing, size_t line)
{
    size_t release = release_after(listing, line);
    if (release != 0) {
        printf(", released at line %zu", release);
    } else {
        printf(", not released by the end");
    }
}

void print_handing(const struct listing *listing, size_t line)
{
    size_t from = held_from(listing, line);
    if (from != 0) {
        printf("handed the bus at line %zu", from);
    } else {
        printf("not handed the bus by the end");
    }
}

/* Prints who has the bus after this line, and who follows. */
static void print_bus(const struct inquiry *inquiry, size_t line)
{
    const struct listing *listing = &inquiry->listing;
    struct bus bus = bus_after(listing, line);
    if (bus.holder == 0) {
        return;
    }
    printf("  line %zu: bus held by ", line);
    print_card(stdout, &inquiry->table, bus.holder);
    print_release(listing, line);
    if (bus.elected != 0) {
        printf(", with ");
        print_card(stdout, &inquiry->table, bus.elected);
        printf(" elected to follow");
        size_t handed = release_after(listing, line);
        if (handed != 0) {
            print_release(listing, handed);
        }
    }
    putchar('\n');
}

/* Prints who wins at this line, and how long that card has the bus. */
static void print_winner(const struct inquiry *inquiry, size_t line)
{
    const struct listing *listing = &inquiry->listing;
    bool elected = is_election(listing, line);
    size_t from = held_from(listing, line);
    printf("  line %zu: %s ", line, elected ? "elected" : "granted to");
    print_card(stdout, &inquiry->table, event_at(listing, line)->winner);
    if (elected) {
        printf(", ");
        print_handing(listing, line);
    }
    if (from != 0) {
        print_release(listing, from);
    }
    putchar('\n');
}

static void print_event(const struct inquiry *inquiry, struct streak *streak, size_t line)
{
    const struct event *event = event_at(&inquiry->listing, line);
    if (event->letter == 'A' && event->answer != 0) {
        lengthen_streak(streak, line, event->answer);
    } else if (is_grant_to_other(event, inquiry->number)) {
        end_streak(streak);
        print_winner(inquiry, line);
    } else if (event->number == inquiry->number && event->answer != 0) {
        end_streak(streak);
        printf("  line %zu: its %s refused", line, event->letter == 'Q' ? "request" : "release");
        print_reason(event->answer);
    }
}

void print_during(const struct inquiry *inquiry, const struct wait *wait)
{
    print_bus(inquiry, wait->asked);
    struct streak streak = {.count = 0};
    for (size_t line = wait->asked + 1; line <= wait->until; line++) {
        print_event(inquiry, &streak, line);
    }
    end_streak(&streak);
}
