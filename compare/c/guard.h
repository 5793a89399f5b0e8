/* The groups of cases. */
#ifndef GUARD_H
#define GUARD_H

void guard_settlings(void);
void guard_tables(void);

#endif
