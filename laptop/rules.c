#include "rules.h"

static const struct rule rules[] = {
    {"fixed", 0, 0, 0},
    {"round-robin", 1, 1, 0},
    {"arrival", 1, 1, 0},
    {"batch", 2, 1, 1},
    {"inhibit", 2, 1, 0},
};

const struct rule *rule_numbered(unsigned number)
{
    return number < sizeof rules / sizeof *rules ? &rules[number] : NULL;
}
