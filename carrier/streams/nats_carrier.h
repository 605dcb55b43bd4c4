/* The parts of the carrier over NATS JetStream. Shard N is the stream KRB_N with the subjects
 * krb.N.SESSION, an offset is a sequence number of the stream, and the list's number is the time
 * at which it was made.
 *
 * libnats waits by the wall clock, so no part of it is asked to wait: these read its socket, and wait by themselves. */
#ifndef NATS_CARRIER_H
#define NATS_CARRIER_H

#include "carrier.h"

#include <krbrelay.h>
#include <nats/nats.h>

enum { NATS_HELD = 4096, NATS_DROPPED = 64, NATS_TEXT = 512, NATS_SUBJECT = 160, NATS_NAME = 32 };

/* Streams have the numbers of their shards; that of receipts has this one. */
enum { NATS_RECEIPTS = CARRIER_SHARDS };
#define NATS_RECEIPTS_NAME "KRB_RECEIPTS"
#define NATS_RECEIPTS_SUBJECTS "krbr.*.*"

struct nats_carrier {
    struct carrier base;
    natsOptions *options;
    natsConnection *connection;
    int64_t ahead;                      /* by so many milliseconds the wall clock is ahead of the one that only rises */
    unsigned replicas;
    natsInbox *inbox;
    /* Its socket, or -1, and how many the connection had, both of which a thread of libnats may set; whether TLS is spoken
     * there; when something was read, and when a word of the server was asked for, in milliseconds. */
    int socket, sockets, is_secure;
    uint64_t read, asked_word;
    natsSubscription *words;
    natsMsg *dropped[NATS_DROPPED];     /* messages that aren't needed any more */
    int dropped_count;
    /* Questions that are waited for (nats_streams.c): their answers, how many were asked, milliseconds to wait for one,
     * and those that the last answer took, or 0. */
    natsSubscription *replies;
    unsigned long asked;
    int patience, answered;
    /* Of each shard to which frames are published, and of the stream of a receiver's receipts: its list, whether
     * it is known, the question about it that is under way, or 0, and the pause until the next one. */
    struct { uint64_t list; unsigned long question; struct krbrelay_pause pause; int is_known; }
        made[NATS_RECEIPTS + 1];
    unsigned long questions;            /* so many were asked, */
    unsigned asked_count;               /* and are under way */
    uint64_t doubted;                   /* when it was last doubted that all are there, in milliseconds */
    natsSubscription *answers;          /* to these, and confirmations */
    /* The reader: which list it is, where it stands, how many frames its consumer has delivered, and the frames of
     * the last fetch. */
    unsigned shard;
    uint64_t list, after, delivered;
    uint64_t known;                     /* it has been here: what is gone before it was told */
    uint64_t pending;                   /* frames after the last, when it was delivered */
    uint64_t heard;                     /* when the consumer said something last, in milliseconds */
    int has_others;                     /* the stream has other subjects than the shard's */
    natsSubscription *reader;
    natsMsg *held[NATS_HELD];
    int held_count;
    natsSubscription *receipts;         /* all that are published, from the first look on, */
    int has_read_kept;                  /* and those that were there before were read */
    struct krbrelay_pause first;        /* a receiver's wait so long for their stream at first */
    int has_told_replicas;              /* it was told that it has too few replicas */
    int has_password;                   /* a name of --carrier has one, so what NATS says of servers isn't printed */
    uint64_t connected, told_away;      /* when it had a connection, and when it was told last why it has none, both in
                                         * milliseconds */
};

/* Logs a fault of a call; ANSWER_FAULT. */
enum answer nats_report(const char *what, natsStatus status);

/* Subscribes to what is said to this carrier under a word of its inbox, such as "*.frames". */
natsStatus nats_hear(struct nats_carrier *c, const char *word, natsSubscription **subscription);

/* A message, or none, isn't needed any more. libnats wakes a thread for each that it frees, so many are freed at once. */
void nats_drop(struct nats_carrier *c, natsMsg *message);

/* Ends a subscription, and drops what it heard. */
void nats_leave(natsSubscription **it);

/* Called whenever the caller asks for something. Another connection is begun where this one was lost, or the server answers
 * nothing; and where the wall clock was set back, since a wait of libnats's threads may last for as long. */
void nats_look_around(struct nats_carrier *c);

/* ---- nats_events.c: the connection's socket. */

/* Before a connection is begun; after it has ended. */
natsStatus nats_begin_events(struct nats_carrier *c);
void nats_end_events(struct nats_carrier *c);

/* Reads some of what has come, and writes what is to leave: 1 if it has read something. */
int nats_turn(struct nats_carrier *c);

/* Takes a message of a subscription: NATS_TIMEOUT if none has come; or waits at most so many milliseconds for it. */
natsStatus nats_next(struct nats_carrier *c, natsSubscription *from, natsMsg **message);
natsStatus nats_await(struct nats_carrier *c, natsSubscription *from, natsMsg **message, int milliseconds);

/* Where too much waits to leave, waits for that; until all that was published is with the server, at most so long. */
void nats_let_leave(struct nats_carrier *c);
void nats_let_all_leave(struct nats_carrier *c, int milliseconds);

/* Asks a server of which nothing was heard for a word, and leaves one that doesn't answer. Whether another
 * connection has to be begun. */
int nats_is_lost(struct nats_carrier *c);

/* ---- nats_streams.c: what streams and their consumers say. */

void nats_name_stream(unsigned stream, char name[NATS_NAME]);

/* What a stream says of itself. */
struct nats_stream {
    uint64_t created, last, messages, replicas;
    int is_by_limits, is_in_files, keeps_all; /* its retention, its storage, and of each subject */
    char subject[NATS_NAME]; /* its subject, if it has one alone; or "" */
};

/* Reads it from an answer: NATS_OK, NATS_NOT_FOUND where there is no such stream, or NATS_ERR. */
natsStatus nats_read_stream(natsMsg *answer, struct nats_stream *it);

/* Whether a stream may be a shard: NATS_OK, or NATS_ERR with a report. */
natsStatus nats_judge_stream(const struct nats_carrier *c, const char *name, const struct nats_stream *it);

/* Asks about a stream, and waits for the answer: also NATS_TIMEOUT or another status where there is none. */
natsStatus nats_ask_stream(struct nats_carrier *c, const char *name, struct nats_stream *it);

/* Has a consumer made that is kept in memory and awaits no acknowledgements, and waits for it; `how` are further members
 * of its configuration. Where it isn't there soon, others are tried: servers may have given it to a node that is away.
 * `longer` are milliseconds that servers may need for it beside. */
natsStatus nats_consume(struct nats_carrier *c, const char *stream, const char *how, int longer, natsSubscription **reader);

/* The offset of a message of a consumer, which of its messages it is, and how many come after it: 1, or 0 if it says
 * nothing of that. */
struct nats_place { uint64_t offset, turn, left; };
int nats_read_place(natsMsg *message, struct nats_place *it);

/* Asks about a stream, or has it made; the answer comes to that subject, and isn't waited for. How it is made. */
void nats_ask(struct nats_carrier *c, const char *what, const char *stream, const char *reply, const char *text);
void nats_write_stream(const struct nats_carrier *c, unsigned stream, char text[NATS_TEXT]);

/* Whether an answer has a word; the number after it, or 0; what an error describes itself as. */
int nats_says(natsMsg *message, const char *word);
uint64_t nats_number_after(natsMsg *message, const char *word);
void nats_read_description(natsMsg *message, char text[NATS_TEXT]);

/* ---- nats_publisher.c: makes streams, publishes frames, and reads confirmations. */

/* Asks for a stream from time to time, which is made if there is none. One message is read, if there is one: whether
 * there was, and how many frames it confirms. */
void nats_look_for(struct nats_carrier *c, unsigned stream);
int nats_read_one(struct nats_carrier *c, struct confirmed *list, size_t *count);

enum answer nats_make(struct carrier *base, unsigned shard, uint64_t *list);
enum answer nats_publish(struct carrier *base, unsigned shard, const char *session, uint32_t tag,
                         uint64_t number, const uint8_t *frame, size_t len);
enum answer nats_confirmed(struct carrier *base, struct confirmed *list, size_t room, size_t *count);

/* ---- nats_reader.c */

enum answer nats_find_list(struct carrier *base, unsigned shard, uint64_t *list, uint64_t *end);
void nats_seek(struct carrier *base, unsigned shard, uint64_t offset);
enum answer nats_fetch(struct carrier *base, struct carried *list, size_t room, size_t *count);
uint64_t nats_due(struct carrier *base);
enum answer nats_behind(struct carrier *base, uint64_t *frames);
void nats_stop_reading(struct nats_carrier *c);

/* ---- nats_receipts.c */

enum answer nats_acknowledge(struct carrier *base, unsigned shard, const struct carried *list,
                             size_t count);
void nats_look_for_receipts(struct nats_carrier *c); /* a receiver's: waits for nothing */
void nats_check_replicas(struct nats_carrier *c, const struct nats_stream *it);
natsStatus nats_hear_receipts(struct nats_carrier *c);
enum answer nats_receipts(struct carrier *base, carrier_receipt *take, void *given);
void nats_forget(struct carrier *base, unsigned shard, const char *session);

#endif
