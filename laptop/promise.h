/* What the rule promises to a card that waits, and whether the listing kept it. */
#ifndef PROMISE_H
#define PROMISE_H

#include <stdio.h>

#include "inquiry.h"

/* Whether the rule bounds a wait at all. */
bool has_bound(const struct table *table);

/* Prints "2 grants to others", "1 grant to another". */
void print_grants(FILE *file, size_t grants);

/* Prints the answer for the technician in one sentence. */
void print_answer(FILE *file, const struct inquiry *inquiry);

/* Prints a line: what the rule promises, or who goes first where it promises nothing. */
void print_promise(FILE *file, const struct inquiry *inquiry);

/* Prints a loud line if some card, or all others together, were granted too often in one wait:
 * whether that was so. */
bool print_broken(FILE *file, const struct inquiry *inquiry);

#endif
