/* Lines of fixed width, as the proved programs print them: fields of digits between fixed bytes. */
#ifndef FIELDS_H
#define FIELDS_H

#include <stdbool.h>
#include <stddef.h>
#include <stdint.h>

/* Whether each byte of the line fits the shape: 0 stands for any digit, . for any byte, and every
 * other byte for itself. */
bool has_shape(const char *line, const char *shape, size_t bytes);

bool is_digit(char c);

/* The number that begins here and ends before the first byte that is no digit. At most 19 digits
 * may follow. */
uint64_t number_at(const char *line, size_t at);

/* How many digits a number has in decimal. */
unsigned digits(uint64_t number);

#endif
