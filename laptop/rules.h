/* The rules of arbitration: what each is called and what it promises to a card that waits. */
#ifndef RULES_H
#define RULES_H

#include <stddef.h>

struct rule {
    const char *name;
    size_t each_other; /* most grants to each other card in one wait, 0 where there is no bound */
    size_t each_lower; /* the same for a card with a lower number than the one that waits */
    size_t fewer;      /* all others together have so many fewer than each_other for each */
};

/* The rule of a number, or null if no rule has it. */
const struct rule *rule_numbered(unsigned number);

#endif
