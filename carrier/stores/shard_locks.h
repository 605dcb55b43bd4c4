/* Which receiver serves which shard, where receivers of a store share them (--shards auto).
 *
 * A lock on a shard says that a receiver serves it. It ends when the receiver gives it back, ends
 * or is lost. Locks spare work: what is right rests on compare-and-set (store.h), so a receiver
 * that lost its locks without knowing does no harm.
 *
 * Over PostgreSQL they are advisory locks of a connection of its own, which the server ends when
 * nothing came for ten seconds. Over SQLite they are locks on bytes of the file STORE.shards, which
 * the system ends with the process. It belongs to one thread. */
#ifndef SHARD_LOCKS_H
#define SHARD_LOCKS_H

#include "carrier.h"

struct shard_locks {
    const struct shard_locks_calls *calls;
    int is_cut_off;                    /* this receiver, from the carrier: it isn't counted, as shards are for others */
    unsigned char has[CARRIER_SHARDS]; /* whether it has a shard's lock, as far as it knows */
};

struct shard_locks_calls {
    /* How many receivers share the store now, this one among them unless it is cut off; -1 if the store doesn't
     * answer. Called each second: that says that this one is there. Locks that were lost are taken again
     * before, unless another receiver has them. */
    int (*count)(struct shard_locks *);

    /* What shard_locks_take and shard_locks_give_back do. */
    int (*take)(struct shard_locks *, unsigned shard);
    void (*give_back)(struct shard_locks *, unsigned shard);

    void (*close)(struct shard_locks *);
};

/* Opens it for the store of this name. NULL after a fault. */
struct shard_locks *shard_locks_open(const char *where);

/* Takes a shard, unless another receiver has it: 1, 0, or -1 if the store doesn't answer. */
int shard_locks_take(struct shard_locks *locks, unsigned shard);

void shard_locks_give_back(struct shard_locks *locks, unsigned shard);

/* ---- For those who write one: its first member is a struct shard_locks. */

/* Zeros of this size, but for these calls; NULL without memory. */
void *shard_locks_make(size_t size, const struct shard_locks_calls *calls);

/* What was made, if it could be opened; else it is closed, and this is NULL. */
struct shard_locks *shard_locks_made(struct shard_locks *locks, int is_open);

struct shard_locks *postgresql_shard_locks_open(const char *where);

#endif
