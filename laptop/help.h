#ifndef HELP_H
#define HELP_H

/* Prints the page that a technician can work from. */
void print_help(void);

#endif
