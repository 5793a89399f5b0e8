#include "tally.h"

#include <stdio.h>
#include <stdlib.h>

static unsigned passed;
static unsigned failed;

void tally(bool good, const char *name)
{
    if (good) {
        passed++;
    } else {
        failed++;
        printf("FAILED %s\n  repeat: compare/c/run\n", name);
    }
}

int tally_end(void)
{
    printf("%u passed, %u failed\n", passed, failed);
    return failed == 0 && passed > 0 ? EXIT_SUCCESS : EXIT_FAILURE;
}
