/* The commands of racklap. Each takes the words behind its name and returns the exit status. */
#ifndef COMMANDS_H
#define COMMANDS_H

#include "arguments.h"

int check_command(struct words words);
int explain_command(struct words words);
int table_command(struct words words);
int settle_command(struct words words);
int why_command(struct words words);
int report_command(struct words words);

#endif
