/* The shards that a receiver serves: a thread for each, which waits by itself until it is woken. All is called by one
 * thread, which isn't one of these, and is woken where one of them has begun or has ended. */
#ifndef SHARD_THREADS_H
#define SHARD_THREADS_H

#include "shard.h"
#include "waiting.h"

enum shard_state {
    SHARD_IDLE,   /* it has no thread */
    SHARD_SERVED,
    SHARD_LEFT    /* its thread is to end, or has ended */
};

/* Prepares all. If shards come and go, one that can't be started is no fault. */
enum answer threads_begin(const struct shard_options *options, struct sessions *sessions, int come_and_go,
                          struct waiting *owner);

/* From now on these are the sessions of all. */
void threads_use(struct sessions *sessions);

/* Something has come: all shards look for it. Another file may be in the place of a store: its shards look. */
void threads_wake(void);
void threads_look_at_stores(void);

/* Starts a shard's thread; 0 if that isn't possible. */
int threads_start(unsigned shard);

/* Its thread ends after its transaction. */
void threads_leave(unsigned shard);

/* Makes shards idle whose threads have ended: how many. */
unsigned threads_join(void);

enum shard_state threads_state(unsigned shard);

/* How many threads there are; whether all of them have begun; whether one couldn't. */
unsigned threads_count(void);
int threads_is_ready(void);
int threads_failed(void);

/* Whether there are threads, and the carrier has answered none of them for ten seconds. */
int threads_is_unanswered(void);

/* Whether the thread of a shard that is idle has ended since all its sessions are closed. */
int threads_has_closed(unsigned shard);

void threads_end(void);

/* ---- One shard, as its thread serves it turn by turn. */

struct served {
    struct shard shard;
    struct shard_counts before; /* what was reported last, */
    uint64_t began, reported;   /* and when, in nanoseconds; when it began to work */
    int is_unshown;             /* something has happened since */
    uint64_t answered;          /* when the carrier answered last: its owner reads this, */
    int is_left;                /* and sets this: it is to end */
};

/* The shard is to be served, by threads_begin's options. */
void threads_prepare(struct served *it, unsigned shard);

/* Opens it. After both shard_stop has to be called in the end. */
enum answer threads_open(struct served *it);

/* One step of the shard, with the sessions of threads_use; the next one is due at *until, as that of shard_step. 1 if there
 * is none since it is to end, or all its sessions are closed and that is the end. */
int threads_turn(struct served *it, uint64_t *until);

/* Receipts that are due leave, and what was done is reported: after the last turn. */
void threads_finish(struct served *it);

#endif
