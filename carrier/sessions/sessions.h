/* The sessions that both ends know: one line each, of a file that only its owner may read.
 *
 *     NAME SHARD ETYPE MODE KEY FIRST FROM TO [BACK]
 *     tom-7 3 18 priv 6b6579..(64 digits) 1 10.0.0.1 10.0.0.255
 *
 * A name has 1 to 31 letters, digits, '-' and '_', a shard is below CARRIER_SHARDS, and FIRST
 * below 2^32. BACK is the key under which receipts are sealed; without it that follows from KEY
 * (receipts.h). No two sessions have a
 * name or a key in common: under one key, what is sealed of one would open as the other's. They
 * stand there as keys stand in a keytab; where they come from is up to the exchange.
 *
 * The file is read once, which checks each line. A session is found in it by its name when it is
 * needed, so a million lines cost nothing else. */
#ifndef SESSIONS_H
#define SESSIONS_H

#include "carrier.h"

#include <krbrelay.h>

struct session {
    char name[CARRIER_NAME]; /* the first member: who has a session may be found by it */
    unsigned shard;
    int32_t etype;
    uint32_t mode; /* KRBRELAY_SAFE or KRBRELAY_PRIV */
    uint8_t key[32];
    size_t key_len;
    uint8_t back[32]; /* the key of the way back, as long, if has_back; else it follows (receipt_key) */
    uint32_t has_back;
    uint32_t first; /* the first sequence number */
    uint32_t has_opening; /* 1: before it stands an opening (opening.h); or 0 */
    struct krbrelay_address from, to;
};

/* The file as it was read. Threads may share it: nothing of it changes. */
struct sessions;

/* One that has no line, and no path. NULL, with a line of the log, if there is no memory. */
struct sessions *sessions_empty(void);

/* Reads it. The path stays valid. NULL, with a line of the log, if it can't be read, isn't of that
 * form, or may be read or written by others than its owner. */
struct sessions *sessions_read(const char *path);

/* Called once a second, by one thread: if the file has changed, and is the same as at
 * the last call, reads it. NULL if it hasn't, or, with a line of the log, if it can't be used. */
struct sessions *sessions_read_again(struct sessions *sessions);

/* The session with this name: 1, or 0 if there is none. The caller overwrites what it got, since it
 * has a key. */
int sessions_find(const struct sessions *sessions, const char *name, struct session *it);

/* Whether a session is in this shard. */
int sessions_have_shard(const struct sessions *sessions, unsigned shard);

/* Whether a session may have this name. */
int sessions_may_have(const char *name);

/* How many there are; the session at a place below that, in no order. */
size_t sessions_count(const struct sessions *sessions);
void sessions_at(const struct sessions *sessions, size_t place, struct session *it);

/* One more user of it; one less, which overwrites and frees it after the last. NULL is none. */
struct sessions *sessions_share(struct sessions *sessions);
void sessions_forget(struct sessions *sessions);

/* Logs what a call of libkrbrelay answered. */
void report_answer(const char *event, const char *name, uint64_t number,
                   enum krbrelay_answer answer);

/* What an answer says. */
void answer_text(enum krbrelay_answer answer, char text[KRBRELAY_TEXT_SIZE]);

#endif
