/* The figures of a waiting report in words, for the site manager. */
#ifndef FIGURES_H
#define FIGURES_H

#include "tally.h"

enum { TEXT_WIDTH = 80 }; /* columns of a terminal; every row that is printed keeps within them */

/* Prints how much was counted, and what ended the counting. */
void print_counted(const struct tally *tally);

/* Prints a row a card, by slot: its grants, its mean wait and the variance of its waits. */
void print_figures(const struct tally *tally);

/* Prints a bar a card, by slot: as long as its mean wait, the longest across the terminal. */
void print_mean_bars(const struct tally *tally);

#endif
