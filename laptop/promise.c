#include "promise.h"

#include "times.h"
#include "waits.h"

bool has_bound(const struct table *table)
{
    return table->rule->each_other != 0;
}

void print_grants(FILE *file, size_t grants)
{
    fprintf(file, grants == 1 ? "%zu grant to another" : "%zu grants to others", grants);
}

/* The most grants to all other cards together in one wait. */
static size_t most_together(const struct table *table)
{
    size_t most = table->rule->each_other * (table->cards - 1);
    return most < table->rule->fewer ? 0 : most - table->rule->fewer;
}

/* The most to each other card. Where there is but one, the grants to it are those to all. */
static size_t most_each(const struct table *table)
{
    return table->cards == 2 ? most_together(table) : table->rule->each_other;
}

static void print_most(FILE *file, const struct table *table)
{
    print_grants(file, most_together(table));
}

/* Whether some card has a number greater than the asked card's. */
static bool has_greater(const struct inquiry *inquiry)
{
    unsigned number = inquiry->number + 1;
    while (number < NUMBERS && !has_number(&inquiry->table, number)) {
        number++;
    }
    return number < NUMBERS;
}

void print_answer(FILE *file, const struct inquiry *inquiry)
{
    if (has_bound(&inquiry->table)) {
        fputs("At most ", file);
        print_most(file, &inquiry->table);
        fprintf(file, ", then slot %u.", inquiry->slot);
    } else if (has_greater(inquiry)) {
        fputs("No bound: greater numbers go first.", file);
    } else {
        fprintf(file, "Slot %u goes first: no greater number.", inquiry->slot);
    }
}

static void print_greater(FILE *file, const struct inquiry *inquiry)
{
    const char *before = " each time they ask: ";
    fputs("greater numbers go first", file);
    for (unsigned slot = 1; slot < SLOTS; slot++) {
        unsigned number = inquiry->table.number_in[slot];
        if (number > inquiry->number) {
            fputs(before, file);
            print_card(file, &inquiry->table, number);
            before = ", ";
        }
    }
    fputs(has_greater(inquiry) ? ".\n" : ", but no card here has one.\n", file);
}

void print_promise(FILE *file, const struct inquiry *inquiry)
{
    const struct rule *rule = inquiry->table.rule;
    if (has_bound(&inquiry->table)) {
        fprintf(file, "Promise of the %s rule: while slot %u waits, at most ", rule->name,
                inquiry->slot);
        print_most(file, &inquiry->table);
        fputs(", each other card at most ", file);
        print_times(file, most_each(&inquiry->table));
        if (rule->each_lower < most_each(&inquiry->table)) {
            fputs(", one with a lower number at most ", file);
            print_times(file, rule->each_lower);
        }
        fputs(".\n", file);
    } else {
        fprintf(file, "The %s rule promises no bound: ", rule->name);
        print_greater(file, inquiry);
    }
}

struct breach {
    size_t asked;    /* the line at which the wait began */
    unsigned number; /* of the card that was granted too often, 0 for all others together */
    size_t grants;
};

struct breaches {
    struct breach first;
    size_t count;
};

static void note(struct breaches *breaches, struct breach breach, size_t most)
{
    if (breach.grants > most && breaches->count++ == 0) {
        breaches->first = breach;
    }
}

/* Notes each card that was granted too often in the wait, and the others together if none was. */
static void note_wait(struct breaches *breaches, const struct inquiry *inquiry,
                      const struct wait *wait)
{
    const struct rule *rule = inquiry->table.rule;
    size_t before = breaches->count;
    size_t grants[NUMBERS] = {0};
    add_others(&inquiry->listing, wait, grants);
    for (unsigned number = 1; number < NUMBERS; number++) {
        size_t most = number < inquiry->number ? rule->each_lower : rule->each_other;
        note(breaches, (struct breach){wait->asked, number, grants[number]}, most);
    }
    if (breaches->count == before) {
        note(breaches, (struct breach){wait->asked, 0, wait->others},
             most_together(&inquiry->table));
    }
}

static void print_breaches(FILE *file, const struct inquiry *inquiry,
                           const struct breaches *breaches)
{
    const struct breach *first = &breaches->first;
    fputs("*** PROMISE BROKEN *** ", file);
    print_times(file, breaches->count);
    fprintf(file, ", first in the wait asked at line %zu: ", first->asked);
    if (first->number != 0) {
        print_card(file, &inquiry->table, first->number);
        fputs(" was granted ", file);
        print_times(file, first->grants);
    } else {
        print_grants(file, first->grants);
    }
    fputs(". If this is the table of the rack, keep it and the listing, and report them.\n", file);
}

bool print_broken(FILE *file, const struct inquiry *inquiry)
{
    struct breaches breaches = {.count = 0};
    struct wait wait = {.asked = 0};
    while (has_bound(&inquiry->table) && next_wait(&inquiry->listing, inquiry->number, &wait)) {
        note_wait(&breaches, inquiry, &wait);
    }
    if (breaches.count > 0) {
        print_breaches(file, inquiry, &breaches);
    }
    return breaches.count > 0;
}
