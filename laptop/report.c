#include "report.h"

#include "bus.h"
#include "clones.h"
#include "during.h"
#include "promise.h"
#include "times.h"
#include "waits.h"

static void print_heading(const struct inquiry *inquiry)
{
    const struct table *table = &inquiry->table;
    print_card(stdout, table, inquiry->number);
    printf(" in a rack of %zu, rule %u (%s)\n\n", table->cards, table->rule_number,
           table->rule->name);
}

/* Prints at which line the wait ended, and how. */
static void print_outcome(const struct listing *listing, const struct wait *wait)
{
    if (wait->granted == 0) {
        printf("not granted by the end, ");
    } else if (!is_election(listing, wait->granted)) {
        printf("granted at line %zu, ", wait->granted);
    } else {
        printf("elected at line %zu, ", wait->granted);
        print_handing(listing, wait->granted);
        printf(", ");
    }
}

static size_t print_waits(const struct inquiry *inquiry)
{
    size_t count = 0;
    struct wait wait = {.asked = 0};
    while (next_wait(&inquiry->listing, inquiry->number, &wait)) {
        count++;
        printf("wait %zu: asked at line %zu, ", count, wait.asked);
        print_outcome(&inquiry->listing, &wait);
        print_grants(stdout, wait.others);
        putchar('\n');
        print_during(inquiry, &wait);
    }
    return count;
}

/* Prints the cards that were granted while this one waited, the most frequent first. */
static void print_went_first(const struct inquiry *inquiry)
{
    size_t sums[NUMBERS] = {0};
    struct wait wait = {.asked = 0};
    while (next_wait(&inquiry->listing, inquiry->number, &wait)) {
        add_others(&inquiry->listing, &wait, sums);
    }
    for (;;) {
        unsigned most = 0;
        for (unsigned number = 1; number < NUMBERS; number++) {
            most = sums[number] > sums[most] ? number : most;
        }
        if (most == 0) {
            return;
        }
        fputs("Went first: ", stdout);
        print_card(stdout, &inquiry->table, most);
        putchar(' ');
        print_times(stdout, sums[most]);
        putchar('\n');
        sums[most] = 0;
    }
}

static bool has_election(const struct listing *listing)
{
    size_t line = 1;
    while (line <= listing->lines && !is_election(listing, line)) {
        line++;
    }
    return line <= listing->lines;
}

static void print_longest(const struct inquiry *inquiry)
{
    struct wait longest = longest_wait(&inquiry->listing, inquiry->number);
    fputs("Longest wait: ", stdout);
    print_grants(stdout, longest.others);
    printf(", asked at line %zu.%s\n", longest.asked,
           has_election(&inquiry->listing) ? " An election counts as a grant." : "");
}

/* What the rule promises, which cards have a clone, whether the listing kept the promise, and the
 * answer if nothing is wrong. */
static bool print_verdict(const struct inquiry *inquiry)
{
    print_promise(stdout, inquiry);
    bool cloned = print_clones(stdout, inquiry);
    bool broken = print_broken(stdout, inquiry);
    if (!cloned && !broken) {
        fputs("Answer: ", stdout);
        print_answer(stdout, inquiry);
        putchar('\n');
    }
    return cloned || broken;
}

bool print_report(const struct inquiry *inquiry)
{
    print_heading(inquiry);
    if (print_waits(inquiry) == 0) {
        printf("slot %u never waits in this listing\n\n", inquiry->slot);
    } else {
        putchar('\n');
        print_longest(inquiry);
    }
    print_ending(stdout, &inquiry->listing);
    if (!has_bound(&inquiry->table)) {
        print_went_first(inquiry);
    }
    return print_verdict(inquiry);
}
