#include "fields.h"

bool is_digit(char c)
{
    return c >= '0' && c <= '9';
}

bool has_shape(const char *line, const char *shape, size_t bytes)
{
    for (size_t i = 0; i < bytes; i++) {
        bool fits = shape[i] == '0' ? is_digit(line[i]) : shape[i] == '.' || shape[i] == line[i];
        if (!fits) {
            return false;
        }
    }
    return true;
}

uint64_t number_at(const char *line, size_t at)
{
    uint64_t value = 0;
    for (; is_digit(line[at]); at++) {
        value = 10 * value + (uint64_t)(line[at] - '0');
    }
    return value;
}

unsigned digits(uint64_t number)
{
    unsigned count = 1;
    for (; number >= 10; number /= 10) {
        count++;
    }
    return count;
}
