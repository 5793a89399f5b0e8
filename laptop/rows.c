#include "clones.h"
#include "promise.h"
#include "report.h"
#include "waits.h"

static void print_row(const struct inquiry *inquiry, const struct wait *wait)
{
    printf("asked %zu granted ", wait->asked);
    if (wait->granted != 0) {
        printf("%zu others", wait->granted);
    } else {
        printf("- others");
    }
    for (size_t line = wait->asked + 1; line <= wait->until; line++) {
        const struct event *event = event_at(&inquiry->listing, line);
        if (is_grant_to_other(event, inquiry->number)) {
            printf(" %u:%u", inquiry->table.slot_of[event->winner], event->winner);
        }
    }
    putchar('\n');
}

bool print_rows(const struct inquiry *inquiry)
{
    struct wait wait = {.asked = 0};
    while (next_wait(&inquiry->listing, inquiry->number, &wait)) {
        print_row(inquiry, &wait);
    }
    printf("longest %zu\n", longest_wait(&inquiry->listing, inquiry->number).others);
    print_ending(stderr, &inquiry->listing);
    bool cloned = print_clones(stderr, inquiry);
    bool broken = print_broken(stderr, inquiry);
    return cloned || broken;
}
