#include "say.h"

#include <errno.h>
#include <stdarg.h>
#include <stdlib.h>
#include <string.h>

static void complain(const char *format, va_list values, const char *after)
{
    fputs("racklap: ", stderr);
    vfprintf(stderr, format, values);
    fprintf(stderr, "%s\n", after);
}

_Noreturn void bad_input(const char *format, ...)
{
    va_list values;
    va_start(values, format);
    complain(format, values, "");
    va_end(values);
    exit(BAD_INPUT);
}

_Noreturn void wrong_usage(const char *format, ...)
{
    va_list values;
    va_start(values, format);
    complain(format, values, " (racklap --help shows how)");
    va_end(values);
    exit(WRONG_USAGE);
}

void finish_output(void)
{
    if (fflush(stdout) != 0 || ferror(stdout)) {
        bad_input("cannot write to standard output");
    }
}

FILE *open_output(const char *name)
{
    FILE *file = fopen(name, "w");
    if (file == NULL) {
        bad_input("cannot write %s: %s", name, strerror(errno));
    }
    return file;
}

void close_output(FILE *file, const char *name)
{
    int failed = ferror(file);
    if (fclose(file) != 0 || failed) {
        bad_input("cannot write all of %s", name);
    }
}
