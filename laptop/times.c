#include "times.h"

void print_times(FILE *file, size_t times)
{
    if (times == 1) {
        fputs("once", file);
    } else if (times == 2) {
        fputs("twice", file);
    } else {
        fprintf(file, "%zu times", times);
    }
}
