/* Reading over NATS JetStream.
 *
 * A reader is an ephemeral consumer that acknowledges nothing and begins after an offset. It
 * counts what it delivers: if one is missing, or its heartbeats are, since its node is away,
 * another consumer is made that begins after the last frame that was fetched. A stream that
 * doesn't exist yet has no frames: readers make none, since senders know how many replicas it has
 * to have. */
#include "clock.h"
#include "log.h"
#include "nats_carrier.h"
#include "text.h"

#include <stdlib.h>
#include <string.h>

enum {
    HEARTBEAT = 700,    /* milliseconds: between two messages of a consumer at most, */
    SILENT = 1500,      /* and after which it isn't there any more */
    PENDING = 256 << 20 /* bytes that have come and weren't fetched */
};

static void let_go(struct nats_carrier *c)
{
    while (c->held_count > 0)
        natsMsg_Destroy(c->held[--c->held_count]);
}

/* Ends the consumer, which servers forget then. */
void nats_stop_reading(struct nats_carrier *c)
{
    let_go(c);
    nats_leave(&c->reader);
}

void nats_seek(struct carrier *base, unsigned shard, uint64_t offset)
{
    struct nats_carrier *c = (struct nats_carrier *)base;
    nats_stop_reading(c);
    if (c->shard != shard || offset > c->known)
        c->known = offset;
    c->shard = shard;
    c->after = offset;
}

/* Asks for a shard's stream: NATS_NOT_FOUND if there is none, NATS_ERR if it isn't one that a shard may be. */
static natsStatus ask_shard(struct nats_carrier *c, unsigned shard, struct nats_stream *it)
{
    char name[NATS_NAME];
    natsStatus status;
    nats_name_stream(shard, name);
    status = nats_ask_stream(c, name, it);
    if (status == NATS_OK)
        return nats_judge_stream(c, name, it);
    if (status != NATS_NOT_FOUND)
        (void)nats_report("a stream", status); /* ANSWER_FAULT, as for each fault */
    return status;
}

enum answer nats_find_list(struct carrier *base, unsigned shard, uint64_t *list, uint64_t *end)
{
    struct nats_carrier *c = (struct nats_carrier *)base;
    struct nats_stream it;
    natsStatus status;
    nats_look_around(c);
    status = ask_shard(c, shard, &it);
    *list = status == NATS_OK ? it.created : 0;
    *end = status == NATS_OK ? it.last : 0;
    if (c->list != *list)
        c->known = 0;
    c->list = *list;
    return status == NATS_OK || status == NATS_NOT_FOUND ? ANSWER_DONE : ANSWER_FAULT;
}

/* Whether the stream is there, is the one of which offsets are, and doesn't end before. */
static enum answer check_stream(struct nats_carrier *c)
{
    struct nats_stream it;
    natsStatus status = ask_shard(c, c->shard, &it);
    char subject[NATS_NAME];
    write_whole(subject, sizeof subject, "krb.%u.*", c->shard);
    c->has_others = strcmp(it.subject, subject) != 0;
    if (status == NATS_OK)
        return (c->list != 0 && it.created != c->list) || it.last < c->after
               ? ANSWER_CHANGED : ANSWER_DONE;
    return status == NATS_NOT_FOUND && c->list != 0 ? ANSWER_CHANGED : ANSWER_FAULT;
}

/* A consumer of the stream that delivers all after the place where the reader stands. It has a filter only where the
 * stream has other subjects: for one that filters a server reads its index anew for each frame. */
static natsStatus make_consumer(struct nats_carrier *c, const char *name)
{
    char how[NATS_TEXT], filter[NATS_SUBJECT] = "";
    natsStatus status;
    if (c->has_others)
        write_whole(filter, sizeof filter, "\"filter_subject\":\"krb.%u.*\",", c->shard);
    write_whole(how, sizeof how, "\"deliver_policy\":\"by_start_sequence\",\"opt_start_seq\":%llu,"
                "%s\"flow_control\":true,\"idle_heartbeat\":%d000000",
                (unsigned long long)c->after + 1, filter, HEARTBEAT);
    status = nats_consume(c, name, how, 0, &c->reader);
    return status == NATS_OK ? natsSubscription_SetPendingLimits(c->reader, -1, PENDING) : status;
}

static enum answer begin_reading(struct nats_carrier *c)
{
    char name[NATS_NAME];
    natsStatus status;
    enum answer answer = check_stream(c);
    if (answer != ANSWER_DONE)
        return answer;
    nats_name_stream(c->shard, name);
    status = make_consumer(c, name);
    if (status != NATS_OK) {
        nats_leave(&c->reader);
        return nats_report(name, status);
    }
    c->delivered = 0;
    c->heard = milliseconds();
    nats_look_for_receipts(c);
    return ANSWER_DONE;
}

/* Retention, an operator, or a broker that lost them: sessions of theirs stand then. */
static void report_gap(struct nats_carrier *c, uint64_t offset)
{
    uint64_t before = c->after > c->known ? c->after : c->known;
    if (offset > before + 1)
        log_fact(LEVEL_WARNING, "frames_gone", field_number("shard", c->shard),
                 field_number("frames", offset - before - 1), field_number("offset", offset),
                 field_text("text", "they stood before the offset: were they deleted, or too old?"));
}

/* Reads a frame; 0 if it isn't the next one. */
static int read_frame(struct nats_carrier *c, natsMsg *message, struct carried *it)
{
    const char *name = strrchr(natsMsg_GetSubject(message), '.');
    struct nats_place place;
    if (!nats_read_place(message, &place) || place.turn != c->delivered + 1 || place.offset <= c->after)
        return 0;
    c->pending = place.left;
    it->offset = place.offset;
    copy_cut(it->session, sizeof it->session, name != NULL ? name + 1 : NULL);
    it->frame = (const uint8_t *)natsMsg_GetData(message);
    it->len = (size_t)natsMsg_GetDataLength(message);
    if (it->frame == NULL)
        it->frame = (const uint8_t *)""; /* no bytes, and no null pointer either */
    c->delivered++;
    report_gap(c, it->offset);
    c->after = it->offset;
    if (c->after > c->known)
        c->known = c->after;
    return 1;
}

/* What the consumer itself says: a heartbeat, which tells how many messages were delivered, or a question whether what
 * came was fetched, which it was. */
static natsStatus read_word(struct nats_carrier *c, natsMsg *message)
{
    const char *ask = natsMsg_GetReply(message), *last = NULL;
    if (ask == NULL && natsMsgHeader_Get(message, "Nats-Consumer-Stalled", &ask) != NATS_OK)
        ask = NULL;
    if (ask != NULL && *ask != 0)
        return natsConnection_Publish(c->connection, ask, NULL, 0);
    if (natsMsgHeader_Get(message, "Nats-Last-Consumer", &last) != NATS_OK)
        return NATS_OK;
    return strtoull(last, NULL, 10) == c->delivered ? NATS_OK : NATS_MISMATCH;
}

/* The next frame, which stays held, if one has come: *has_frame says so. A status that isn't NATS_OK ends a fetch. */
static natsStatus fetch_one(struct nats_carrier *c, struct carried *it, int *has_frame)
{
    natsMsg *message = NULL;
    natsStatus status = nats_next(c, c->reader, &message);
    *has_frame = 0;
    if (status != NATS_OK)
        return status == NATS_TIMEOUT && milliseconds() - c->heard > SILENT ? NATS_MISSED_HEARTBEAT : status;
    c->heard = milliseconds();
    if (strncmp(natsMsg_GetSubject(message), "krb.", 4) != 0) {
        status = read_word(c, message);
        nats_drop(c, message);
        return status;
    }
    *has_frame = read_frame(c, message, it);
    if (!*has_frame) {
        nats_drop(c, message);
        return NATS_MISMATCH;
    }
    c->held[c->held_count++] = message;
    return NATS_OK;
}

enum answer nats_fetch(struct carrier *base, struct carried *list, size_t room, size_t *count)
{
    struct nats_carrier *c = (struct nats_carrier *)base;
    natsStatus status = NATS_OK;
    enum answer answer = ANSWER_DONE;
    int has_frame;
    *count = 0;
    let_go(c);
    nats_look_around(c);
    if (c->made[NATS_RECEIPTS].question != 0)
        nats_look_for_receipts(c);
    if (c->reader == NULL)
        answer = begin_reading(c);
    while (answer == ANSWER_DONE && *count < room && *count < NATS_HELD && status == NATS_OK) {
        status = fetch_one(c, &list[*count], &has_frame);
        *count += has_frame != 0;
    }
    if (answer != ANSWER_DONE || status == NATS_OK || status == NATS_TIMEOUT)
        return answer;
    nats_leave(&c->reader); /* what was fetched stays held */
    answer = nats_report("a reader begins again after what it had", status);
    return *count > 0 ? ANSWER_DONE : answer;
}

/* Whether the consumer has said anything is looked at when it would be too long ago. */
uint64_t nats_due(struct carrier *base)
{
    const struct nats_carrier *c = (const struct nats_carrier *)base;
    return c->reader != NULL ? c->heard + SILENT + 1 : 0;
}

enum answer nats_behind(struct carrier *base, uint64_t *frames)
{
    struct nats_carrier *c = (struct nats_carrier *)base;
    int here = 0, bytes = 0; /* what has come, and wasn't fetched */
    if (c->reader == NULL || natsSubscription_GetPending(c->reader, &here, &bytes) != NATS_OK)
        return ANSWER_FAULT;
    *frames = c->pending > (uint64_t)here ? c->pending : (uint64_t)here;
    return ANSWER_DONE;
}
