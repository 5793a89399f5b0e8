#include "bounds.h"

#include <stdbool.h>
#include <stdio.h>

#include "intervals.h"

/* Prints "1 stage" or "4 stages". */
static void print_count(unsigned count, const char *what)
{
    printf("%u %s%s", count, what, count == 1 ? "" : "s");
}

/* Prints the bits without leading zeros, and `between` where one run ends and the next begins. */
static void print_runs(unsigned number, const char *between)
{
    bool begun = false;
    for (unsigned bit = 1u << (MOST_LINES - 1); bit != 0; bit >>= 1) {
        bool one = (number & bit) != 0;
        bool above = (number & bit << 1) != 0;
        if (begun && one != above) {
            fputs(between, stdout);
        }
        begun = begun || one;
        if (begun) {
            putchar(one ? '1' : '0');
        }
    }
}

/* From lines at 0 there are no more stages than runs. From another start there may be one more,
 * which clears what only the start has set; but none where the greatest number has the top line,
 * for then nothing above it is there to be cleared. */
static bool start_counts(const struct settling *settling)
{
    bool has_top = (greatest_competitor(settling) >> (settling->m - 1) & 1) != 0;
    return settling->start != 0 && !has_top;
}

static void print_start(const struct settling *settling)
{
    if (start_counts(settling)) {
        printf(", and one more for the start, as line %u is 0 in it", settling->m - 1);
    } else if (settling->start != 0) {
        printf(", none more for the start, as line %u is 1 in it", settling->m - 1);
    }
}

static void print_greatest(const struct settling *settling)
{
    unsigned greatest = greatest_competitor(settling);
    unsigned runs = interval_number(greatest);
    printf("at most ");
    print_count(runs + start_counts(settling), "stage");
    printf(" with greatest number %u", greatest);
    if (greatest != 0) {
        printf(" = ");
        print_runs(greatest, "");
    }
    printf(": ");
    print_count(runs, "run");
    if (runs > 1) {
        printf(" (");
        print_runs(greatest, " ");
        printf(")");
    }
    print_start(settling);
    putchar('\n');
}

void print_bounds(const struct settling *settling)
{
    if (settling->count == 0) {
        printf("at most 1 stage without a competing number\n");
    } else {
        print_greatest(settling);
    }
    printf("at most ");
    print_count(settling->m, "stage");
    printf(" on ");
    print_count(settling->m, "line");
    putchar('\n');
}
