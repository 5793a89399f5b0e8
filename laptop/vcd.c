#include "vcd.h"

#include <stdio.h>

#include "say.h"

/* A wire's code in the dump: one letter, as there are at most 12 lines. */
static char code(uint32_t line)
{
    return (char)('a' + line);
}

static void write_header(FILE *file, const struct settling *settling)
{
    fprintf(file, "$comment one time unit a stage: %u lines from %u, competing", settling->m,
            settling->start);
    for (size_t i = 0; i < settling->count; i++) {
        fprintf(file, " %u", competitor(settling, i));
    }
    fprintf(file, " $end\n$timescale 1 ns $end\n$scope module bus $end\n");
    for (uint32_t line = settling->m; line-- > 0;) {
        fprintf(file, "$var wire 1 %c line%u $end\n", code(line), line);
    }
    fprintf(file, "$upscope $end\n$enddefinitions $end\n");
}

static void write_values(FILE *file, uint32_t m, unsigned lines, unsigned which)
{
    for (uint32_t line = m; line-- > 0;) {
        if ((which >> line & 1) != 0) {
            fprintf(file, "%u%c\n", lines >> line & 1, code(line));
        }
    }
}

void write_vcd(const struct settling *settling, const char *name)
{
    FILE *file = open_output(name);
    write_header(file, settling);
    fprintf(file, "#0\n$dumpvars\n");
    write_values(file, settling->m, lines_after(settling, 0), ~0u);
    fprintf(file, "$end\n");
    for (uint32_t stage = 1; stage <= settling->t; stage++) {
        unsigned lines = lines_after(settling, stage);
        fprintf(file, "#%u\n", stage);
        write_values(file, settling->m, lines, lines ^ lines_after(settling, stage - 1));
    }
    fprintf(file, "#%u\n", settling->t + 1); /* so that the last stage is drawn with a width */
    close_output(file, name);
}
