/* What carries frames from senders to receivers: NATS JetStream, or one SQLite file.
 *
 * A carrier keeps frames in shards. A shard is a list that grows at its end alone: each frame
 * stands at an offset above 0, offsets rise, and a reader is given all frames after an offset, in
 * order. A frame that is published twice stands there twice. That is harmless, and the carrier
 * must not prevent it (docs/ENGINE.md): JetStream's deduplication stays off.
 *
 * What is asked of a carrier is that what it confirmed stays where it stands, and that a fetch
 * leaves nothing out. If it breaks that, or somebody writes into it, sessions stand still: no text
 * takes effect twice, out of order, or changed, since a frame opens at its own number alone.
 *
 * A shard that is deleted and made again is another list, whose offsets begin anew. Each list has a number that no
 * other one of its shard has, so that who stores an offset can store with it of which list it is.
 *
 * A carrier belongs to one thread. Its calls answer ANSWER_FAULT after a fault that may pass,
 * which they report on standard error; the caller tries again.
 * */
#ifndef CARRIER_H
#define CARRIER_H

#include "answer.h"

#include <stddef.h>
#include <stdint.h>

/* The room for the name of a session with its zero: letters, digits, '-' and '_'. */
#define CARRIER_NAME 32

/* Shards have the numbers below this one. */
#define CARRIER_SHARDS 4096

struct carrier;

/* A frame as it stands in a shard. */
struct carried {
    uint64_t offset;
    char session[CARRIER_NAME]; /* whose frame it is, as its publisher says: nothing proves it */
    const uint8_t *frame;       /* valid until the next fetch */
    size_t len;
};

/* A frame that was published with this tag and number was stored at this offset of its shard. */
struct confirmed { uint32_t tag; uint64_t number, offset; };

/* Which carrier it is, and how it is reached. */
struct carrier_options {
    const char *where;       /* "nats://HOST:PORT[,..]", "tls://HOST:PORT[,..]" or "sqlite:FILE" */
    unsigned replicas;       /* of shards of JetStream: one that has fewer isn't used */
    const char *credentials; /* the file that says who this is to NATS, or NULL */
    const char *tls_ca, *tls_cert, *tls_key, *tls_name; /* files, and a name; or NULL */
};

/* Ends the program with status 2 and a message unless the options that were taken go together. */
void carrier_check_options(const char *program, const struct carrier_options *options);

typedef void carrier_receipt(void *given, const char *session, const uint8_t *receipt, size_t len);

/* Opens it; the options stay. NULL, with a line of the log, if it can't be opened. */
struct carrier *carrier_open(const struct carrier_options *options);

/* The `file` of such a carrier. */
const char *carrier_file(const struct carrier_options *options);

/* What a carrier does; the first member of each kind's own struct. */
struct carrier {
    /* The number of a shard's list, 0 if there is none yet, and its last offset, about. */
    enum answer (*find_list)(struct carrier *, unsigned shard, uint64_t *list, uint64_t *end);

    /* The list for one who publishes: the shard is made unless it exists. As long as the carrier has no
     * reason to ask again, that costs nothing. */
    enum answer (*make)(struct carrier *, unsigned shard, uint64_t *list);

    /* Passes a frame to the carrier. It is stored when it is confirmed, with the caller's tag and
     * number. If it isn't confirmed within some seconds, it may be stored or not. A confirmation counts
     * only up to the last offset that the shard has, whoever wrote it. */
    enum answer (*publish)(struct carrier *, unsigned shard, const char *session, uint32_t tag, uint64_t number,
                   const uint8_t *frame, size_t len);

    /* Takes confirmations, up to room of them; *count says how many. */
    enum answer (*confirmed)(struct carrier *, struct confirmed *list, size_t room, size_t *count);

    /* The next fetch begins after this offset of the shard, of the list that `find_list` gave last. */
    void (*seek)(struct carrier *, unsigned shard, uint64_t offset);

    /* Takes the next frames, up to room of them; *count says how many, also 0. ANSWER_CHANGED: it is another list, or
     * ends before: find the list, and seek. */
    enum answer (*fetch)(struct carrier *, struct carried *list, size_t room, size_t *count);

    /* How many frames stand after the last that was fetched: about, and as far as that is known. */
    enum answer (*behind)(struct carrier *, uint64_t *frames);

    /* ---- Receipts (receipts.h), of which the last one of each session is kept, beside the shards. Each
     * may be lost, or given again. */

    /* Takes receipts of a shard's sessions: offsets don't matter. */
    enum answer (*acknowledge)(struct carrier *, unsigned shard, const struct carried *list, size_t count);

    /* Passes those that came since the last call to a function; the first call that answers 0 has passed the last one
     * of each session, and may wait for that. */
    enum answer (*receipts)(struct carrier *, carrier_receipt *take, void *given);

    /* A session has ended, and its receipt need not be kept. It may be kept all the same, where the carrier is away or
     * doesn't allow it. */
    void (*forget)(struct carrier *, unsigned shard, const char *session);

    /* Whether there is no connection now: another one is tried all the time. */
    int (*is_away)(struct carrier *);

    /* Whether the connection has ended for good, as where a server refused the credentials twice: that is
     * reported, and the program ends, so that it is started again and reads them anew. */
    int (*is_closed)(struct carrier *);

    void (*close)(struct carrier *);

    /* When a fetch has something to do though nothing has come, in milliseconds of the clock that only rises; UINT64_MAX:
     * never. */
    uint64_t (*due)(struct carrier *);

    /* No call waits until something comes: who waits is woken (waiting.h) by the file that is written to then, or NULL, or
     * the descriptor that is ready to be read until calls have taken what came, or -1. */
    const char *file;
    int descriptor;
};

struct carrier *nats_carrier_open(const struct carrier_options *options);
struct carrier *sqlite_carrier_open(const char *path);

#endif
