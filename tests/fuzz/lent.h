/* Buffers that end at a page which must not be touched, with guard bytes before them, for this folder's targets. */
#ifndef LENT_H
#define LENT_H

#include <stdint.h>
#include <stdlib.h>
#include <string.h>
#include <sys/mman.h>
#include <unistd.h>

enum { GUARD = 0xA5, GUARDS = 64 };

struct lent {
    uint8_t *end, *at;
    size_t length;
};

static void make(struct lent *b, size_t longest)
{
    size_t page = (size_t)sysconf(_SC_PAGESIZE), room = (longest + GUARDS + page - 1) / page * page;
    uint8_t *all = mmap(NULL, room + page, PROT_READ | PROT_WRITE, MAP_PRIVATE | MAP_ANONYMOUS, -1, 0);
    if (all == MAP_FAILED || mprotect(all + room, page, PROT_NONE) != 0)
        abort();
    b->end = all + room;
}

static void lend(struct lent *b, const uint8_t *bytes, size_t length)
{
    b->at = b->end - length;
    b->length = length;
    memset(b->at - GUARDS, GUARD, GUARDS);
    memcpy(b->at, bytes, length);
}

static int guarded(const struct lent *b)
{
    for (const uint8_t *p = b->at - GUARDS; p < b->at; p++)
        if (*p != GUARD)
            return 0;
    return 1;
}

static int holds(const struct lent *b, const uint8_t *bytes)
{
    return memcmp(b->at, bytes, b->length) == 0;
}

#endif
