#include "waits.h"

bool is_grant_to_other(const struct event *event, unsigned number)
{
    return event->winner != 0 && event->winner != number;
}

bool next_wait(const struct listing *listing, unsigned number, struct wait *wait)
{
    size_t line = wait->until + 1;
    while (line <= listing->lines && !is_done(event_at(listing, line), 'Q', number)) {
        line++;
    }
    if (line > listing->lines) {
        return false;
    }
    *wait = (struct wait){.asked = line, .until = listing->lines};
    while (wait->granted == 0 && line < listing->lines) {
        line++;
        const struct event *event = event_at(listing, line);
        if (event->winner == number) {
            wait->granted = wait->until = line;
        }
        wait->others += is_grant_to_other(event, number);
    }
    return true;
}

struct wait longest_wait(const struct listing *listing, unsigned number)
{
    struct wait longest = {.asked = 0};
    struct wait wait = {.asked = 0};
    while (next_wait(listing, number, &wait)) {
        if (longest.asked == 0 || wait.others > longest.others) {
            longest = wait;
        }
    }
    return longest;
}

void add_others(const struct listing *listing, const struct wait *wait, size_t sums[NUMBERS])
{
    unsigned number = event_at(listing, wait->asked)->number;
    for (size_t line = wait->asked + 1; line <= wait->until; line++) {
        const struct event *event = event_at(listing, line);
        if (is_grant_to_other(event, number)) {
            sums[event->winner]++;
        }
    }
}
