/* Receipts over NATS: published at krbr.SHARD.SESSION, where senders hear them at once. The stream
 * KRB_RECEIPTS keeps the last one of each session: a sender that begins reads them, and asks for no single one. A
 * receiver makes it. */
#include "clock.h"
#include "log.h"
#include "nats_carrier.h"
#include "text.h"

#include <string.h>

enum { FIRST = 1000 };        /* milliseconds for which the first receipts wait until their stream is there */
enum { A_MILLISECOND = 20 };  /* so many messages a server may find in one, for a consumer of the last of each subject */

/* Tells once that a node's end would take the receipts with it. */
void nats_check_replicas(struct nats_carrier *c, const struct nats_stream *it)
{
    if (it->replicas >= c->replicas || c->has_told_replicas)
        return;
    c->has_told_replicas = 1;
    log_fact(LEVEL_WARNING, "receipts_unfit", field_text("stream", NATS_RECEIPTS_NAME),
             field_number("replicas", it->replicas), field_number("wanted", c->replicas),
             field_text("text", "it has fewer replicas than --replicas asks for: change the stream"));
}

/* ---- A receiver: it waits for no answer */

/* Looks for the stream from time to time, and makes it: what is published meanwhile is heard all the same. */
void nats_look_for_receipts(struct nats_carrier *c)
{
    struct confirmed none; /* a receiver publishes no frames */
    size_t count = 0;
    if (c->first.length == 0)
        krbrelay_pause_begin(&c->first, FIRST, milliseconds());
    nats_look_for(c, NATS_RECEIPTS);
    while (nats_read_one(c, &none, &count))
        count = 0;
}

enum answer nats_acknowledge(struct carrier *base, unsigned shard, const struct carried *list,
                             size_t count)
{
    struct nats_carrier *c = (struct nats_carrier *)base;
    char subject[64];
    natsStatus status = NATS_OK;
    size_t i;
    nats_look_for_receipts(c);
    if (!c->made[NATS_RECEIPTS].is_known && !krbrelay_pause_is_over(&c->first, milliseconds()))
        return ANSWER_FAULT; /* they are sealed again in a moment, and kept then */
    for (i = 0; i < count && status == NATS_OK; i++) {
        write_whole(subject, sizeof subject, "krbr.%u.%s", shard, list[i].session);
        status = natsConnection_Publish(c->connection, subject, list[i].frame, (int)list[i].len);
        nats_let_leave(c);
    }
    (void)nats_turn(c); /* they leave; what it has read waits for who asks for it */
    return status == NATS_OK ? ANSWER_DONE : nats_report("a receipt", status);
}

/* ---- A sender */

/* Passes a message's receipt. */
static void give(natsMsg *message, carrier_receipt *take, void *given)
{
    const char *name = strrchr(natsMsg_GetSubject(message), '.');
    const void *receipt = natsMsg_GetData(message);
    if (name != NULL && receipt != NULL)
        take(given, name + 1, receipt, (size_t)natsMsg_GetDataLength(message));
}

/* Passes those that are kept, of which there are so many. */
static natsStatus read_kept(struct nats_carrier *c, uint64_t messages, carrier_receipt *take, void *given)
{
    natsSubscription *reader = NULL;
    struct nats_place place = { .left = 1 };
    natsStatus status = nats_consume(c, NATS_RECEIPTS_NAME, "\"deliver_policy\":\"last_per_subject\",\"filter_subject\":\""
                                     NATS_RECEIPTS_SUBJECTS "\"", (int)(messages / A_MILLISECOND), &reader);
    if (status == NATS_OK)
        status = natsSubscription_SetPendingLimits(reader, -1, -1); /* none is left out */
    while (status == NATS_OK && place.left > 0) {
        natsMsg *message = NULL;
        status = nats_await(c, reader, &message, 2 * c->patience);
        if (status == NATS_OK) {
            give(message, take, given);
            status = nats_read_place(message, &place) ? NATS_OK : NATS_MISMATCH;
        }
        nats_drop(c, message);
    }
    nats_leave(&reader);
    return status;
}

natsStatus nats_hear_receipts(struct nats_carrier *c)
{
    return natsConnection_SubscribeSync(&c->receipts, c->connection, NATS_RECEIPTS_SUBJECTS);
}

/* Begins to hear them, and reads what is kept. */
static natsStatus begin_to_hear(struct nats_carrier *c, carrier_receipt *take, void *given)
{
    natsStatus status = c->receipts == NULL ? nats_hear_receipts(c) : NATS_OK;
    struct nats_stream it;
    if (status == NATS_OK)
        status = nats_ask_stream(c, NATS_RECEIPTS_NAME, &it);
    if (status == NATS_OK)
        nats_check_replicas(c, &it);
    if (status == NATS_OK && it.messages > 0)
        status = read_kept(c, it.messages, take, given);
    if (status == NATS_NOT_FOUND)
        status = NATS_OK; /* there are none */
    c->has_read_kept = status == NATS_OK;
    return status;
}

enum answer nats_receipts(struct carrier *base, carrier_receipt *take, void *given)
{
    struct nats_carrier *c = (struct nats_carrier *)base;
    natsStatus status = c->has_read_kept ? NATS_OK : begin_to_hear(c, take, given);
    if (status != NATS_OK)
        return nats_report("the last receipts", status);
    while (status == NATS_OK) {
        natsMsg *message = NULL;
        status = nats_next(c, c->receipts, &message);
        if (status == NATS_OK)
            give(message, take, given);
        nats_drop(c, message);
    }
    return status == NATS_TIMEOUT ? ANSWER_DONE : nats_report("receipts", status);
}

/* Nothing waits for an answer: what is left is read by senders that begin, and does nothing. */
void nats_forget(struct carrier *base, unsigned shard, const char *session)
{
    struct nats_carrier *c = (struct nats_carrier *)base;
    char text[96];
    natsStatus status;
    write_whole(text, sizeof text, "{\"filter\":\"krbr.%u.%s\"}", shard, session);
    status = natsConnection_PublishString(c->connection, "$JS.API.STREAM.PURGE." NATS_RECEIPTS_NAME, text);
    if (status != NATS_OK)
        (void)nats_report("a receipt", status); /* ANSWER_FAULT, as for each fault */
}
