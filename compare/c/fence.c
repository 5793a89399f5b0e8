#define _DEFAULT_SOURCE /* for MAP_ANONYMOUS */
#include "fence.h"

#include <stdio.h>
#include <stdlib.h>
#include <string.h>
#include <sys/mman.h>
#include <unistd.h>

static void insist(bool good, const char *what)
{
    if (!good) {
        perror(what);
        exit(EXIT_FAILURE);
    }
}

static size_t page(void)
{
    return (size_t)sysconf(_SC_PAGESIZE);
}

struct fence fence_open(size_t length, enum side side)
{
    insist(length <= ROOM && ROOM % page() == 0, "fence");
    uint8_t *all = mmap(NULL, ROOM + 2 * page(), PROT_NONE, MAP_PRIVATE | MAP_ANONYMOUS, -1, 0);
    insist(all != MAP_FAILED, "mmap");
    uint8_t *room = all + page();
    insist(mprotect(room, ROOM, PROT_READ | PROT_WRITE) == 0, "mprotect");
    memset(room, UNTOUCHED, ROOM);
    uint8_t *bytes = side == AT_THE_START ? room : room + ROOM - length;
    return (struct fence){.bytes = bytes, .length = length, .room = room};
}

struct fence fence_input(const uint8_t *content, size_t length, enum side side)
{
    struct fence fence = fence_open(length, side);
    if (length > 0) {
        memcpy(fence.bytes, content, length);
    }
    insist(mprotect(fence.room, ROOM, PROT_READ) == 0, "mprotect");
    return fence;
}

static bool untouched(const uint8_t *from, const uint8_t *end)
{
    while (from < end && *from == UNTOUCHED) {
        from++;
    }
    return from == end;
}

bool fence_untouched_from(const struct fence *fence, size_t from)
{
    return untouched(fence->room, fence->bytes) &&
           untouched(fence->bytes + from, fence->room + ROOM);
}

void fence_close(struct fence *fence)
{
    insist(munmap(fence->room - page(), ROOM + 2 * page()) == 0, "munmap");
}
