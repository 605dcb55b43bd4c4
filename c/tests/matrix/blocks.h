/* The allocator of the matrix: it counts, refuses one allocation, and searches each block that is given
 * back, or that realloc leaves, for secrets. Programs with it are linked with
 * -Wl,--wrap=malloc -Wl,--wrap=realloc -Wl,--wrap=free. */
#ifndef BLOCKS_H
#define BLOCKS_H
#include <stddef.h>
#include <stdint.h>

void *__wrap_malloc(size_t size);
void *__wrap_realloc(void *block, size_t size);
void __wrap_free(void *block);

/* What was asked for since blocks_count_anew. */
struct asked { long times; size_t bytes, largest; };

/* What was seen since the program began. */
struct seen { long refused, searched, found; const char *last_found; size_t at, of; };

void blocks_count_anew(void);
struct asked blocks_asked(void);
struct seen blocks_seen(void);

/* Refuses the allocation after `before` more, and those after it too if asked; none if below 0. */
void blocks_refuse(long before, int and_all_after);

/* How many blocks aren't given back; and forgets them. */
long blocks_left(void);

/* A secret that no block may have. The bytes and the name stay the caller's. One that isn't of a key is
 * looked for while user data are secret, as in KRB-PRIV. */
void blocks_look_for(const char *name, const uint8_t *bytes, size_t len, int is_of_key);
void blocks_data_are_secret(int are);
#endif
