/* The numbers that the rack's screen can show. */
#ifndef NUMBERS_H
#define NUMBERS_H

#include <stdint.h>

struct screen_number {
    uint32_t number;
    const char *meaning; /* the words of the table 'Numbers the screen can show' */
    const char *next;    /* what the technician looks at next */
};

/* The entry of a number, or null for a number that the screen cannot show. */
const struct screen_number *screen_number(uint32_t number);

/* The meaning alone, for a number that a proved entry returned or a listing carries. */
const char *meaning_of(uint32_t number);

#endif
