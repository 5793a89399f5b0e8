#include "source.h"

#include <errno.h>
#include <string.h>

#include "say.h"

static _Noreturn void unreadable(const struct source *source, int failed)
{
    if (source->name == NULL) {
        bad_input("cannot read the report from standard input");
    }
    bad_input("cannot read %s: %s", source->name, strerror(failed));
}

struct source open_source(const char *name)
{
    struct source source = {.stream = stdin, .name = name};
    if (name != NULL) {
        source.stream = fopen(name, "rb");
    }
    if (source.stream == NULL) {
        unreadable(&source, errno);
    }
    return source;
}

void next_line(struct source *source)
{
    int byte = 0;
    source->line++;
    source->length = 0;
    while (source->length < KEPT_BYTES && byte != '\n' && (byte = getc(source->stream)) != EOF) {
        source->bytes[source->length++] = (char)byte;
    }
    source->bytes[source->length] = '\0';
    if (ferror(source->stream)) {
        unreadable(source, errno);
    }
}

void close_source(struct source *source)
{
    if (source->stream != stdin) {
        fclose(source->stream);
    }
}

_Noreturn void no_line(const struct source *source, const char *expected)
{
    bad_input("report line %zu is %s: expected %s", source->line,
              source->length == 0 ? "missing" : "none", expected);
}
