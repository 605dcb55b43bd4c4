/* In the place of malloc and its like (--wrap), also in libkrbrelay.a. What the C library allocates itself isn't seen. */
#include "ports.h"

#include <string.h>

enum { BUCKETS = 1 << 14, ALIGNED = 16 };

/* A block, before its bytes, which are aligned: in a table of all by their addresses. */
struct block { struct block *other; size_t size; int64_t party; uint64_t filler; };

size_t memory_of[PARTIES];
static struct block *buckets[BUCKETS];

void __real_free(void *at);

/* ---- All blocks */

/* Where the block of these bytes is known from; what it points to is NULL if it is none of these blocks. */
static struct block **place_of(const void *at)
{
    struct block **place = &buckets[(uintptr_t)at / ALIGNED % BUCKETS];
    while (*place != NULL && (const void *)(*place + 1) != at)
        place = &(*place)->other;
    return place;
}

static void remove_block(struct block **place)
{
    struct block *it = *place;
    *place = it->other;
    memory_of[it->party] -= it->size;
    __real_free(it);
}

void memory_free(int party)
{
    unsigned i;
    for (i = 0; i < BUCKETS; i++) {
        struct block **place = &buckets[i];
        while (*place != NULL)
            if ((*place)->party == party)
                remove_block(place);
            else
                place = &(*place)->other;
    }
}

/* ---- The calls */

static int fails(void)
{
    if (running == WORLD || faults.memory == 0 || drawn(100000) >= faults.memory)
        return 0;
    happened(KIND_MEMORY, 1);
    faults.injected++;
    return 1;
}

WRAPPED(void *, malloc, size_t size)
{
    struct block *it = fails() ? NULL : __real_malloc(sizeof *it + size), **place;
    if (it == NULL)
        return NULL;
    place = place_of(it + 1);
    *it = (struct block){ .size = size, .party = running };
    *place = it;
    memory_of[running] += size;
    return it + 1;
}

WRAPPED(void *, calloc, size_t count, size_t size)
{
    void *at = size == 0 || count <= SIZE_MAX / size ? __wrap_malloc(count * size) : NULL;
    return at != NULL ? memset(at, 0, count * size) : NULL;
}

WRAPPED(void, free, void *at)
{
    struct block **place = place_of(at);
    if (*place != NULL)
        remove_block(place);
    else
        __real_free(at); /* the C library's, as of getline */
}

WRAPPED(void *, realloc, void *at, size_t size)
{
    struct block *it = *place_of(at);
    void *more = __wrap_malloc(size);
    if (more == NULL || it == NULL)
        return more;
    memcpy(more, at, it->size < size ? it->size : size);
    __wrap_free(at);
    return more;
}
