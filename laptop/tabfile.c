#include "tabfile.h"

#include <errno.h>
#include <stdio.h>
#include <string.h>

#include "say.h"

struct tabfile read_tabfile(const char *name)
{
    struct tabfile file = {.length = 0};
    FILE *stream = fopen(name, "rb");
    if (stream == NULL) {
        bad_input("cannot read %s: %s", name, strerror(errno));
    }
    file.length = fread(file.bytes, 1, sizeof file.bytes, stream);
    int failed = ferror(stream) ? errno : 0;
    fclose(stream);
    if (failed) {
        bad_input("cannot read %s: %s", name, strerror(failed));
    }
    return file;
}
