/* racklap report: who waited how long, and for whom. */
#include <stdio.h>

#include "commands.h"
#include "figures.h"
#include "heat.h"
#include "say.h"
#include "square.h"

static void print_who_waits(const struct tally *tally)
{
    struct greatest greatest = greatest_count(tally);
    putchar('\n');
    print_square(tally);
    putchar('\n');
    print_greatest(stdout, tally, &greatest);
    if (greatest.as_many > 0) {
        putchar(' ');
        print_as_many(stdout, &greatest);
    }
    putchar('\n');
}

static void print_tally(const struct tally *tally)
{
    print_counted(tally);
    if (tally->table_refused) {
        return;
    }
    putchar('\n');
    print_figures(tally);
    putchar('\n');
    print_mean_bars(tally);
    if (tally->has_square) {
        print_who_waits(tally);
    }
}

int report_command(struct words words)
{
    const char *svg = take_file(&words, "--svg");
    expect_words(&words, 0, 1, "report [FILE] [--svg FILE.svg]");
    struct tally tally = read_tally(words.count == 0 ? NULL : words.word[0]);
    if (svg != NULL && !tally.has_square) {
        bad_input("--svg draws who waits for whom, which this report does not say: let rackreport "
                  "square print it");
    }
    print_tally(&tally);
    finish_output();
    if (svg != NULL) {
        write_heat(&tally, svg);
    }
    return ALL_WELL;
}
