/* racklap: what a service technician asks of a rack, on the commissioning laptop. */
#include <stdio.h>
#include <string.h>

#include "commands.h"
#include "help.h"
#include "say.h"

static const struct {
    const char *name;
    int (*run)(struct words words);
} commands[] = {
    {"check", check_command},   {"explain", explain_command}, {"table", table_command},
    {"settle", settle_command}, {"why", why_command},         {"report", report_command},
};

static int run_command(const char *name, struct words words)
{
    for (size_t i = 0; i < sizeof commands / sizeof *commands; i++) {
        if (strcmp(commands[i].name, name) == 0) {
            return commands[i].run(words);
        }
    }
    wrong_usage("%s is no command", name);
}

int main(int argc, char **argv)
{
    struct words words = {.count = argc - 1, .word = argv + 1};
    int status = ALL_WELL;
    if (take_flag(&words, "--help")) {
        print_help();
    } else if (argc < 2) {
        wrong_usage("usage: racklap check|explain|table|settle|why|report ..");
    } else {
        words.count--;
        words.word++;
        status = run_command(argv[1], words);
    }
    finish_output();
    return status;
}
