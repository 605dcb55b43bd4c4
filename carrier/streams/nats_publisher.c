/* Publishing over NATS JetStream. Nothing here waits for an answer.
 *
 * A frame is published with a reply subject of its own, INBOX.INCARNATION.SHARD.TAG.NUMBER, to
 * which the stream answers with the sequence number at which it stored the message. No Nats-Msg-Id
 * is set: a stream that drops what it has seen would drop what is sent again to come after its
 * predecessor. Whoever may write to the inbox can confirm what isn't stored: that paces, and deletes nothing.
 *
 * A shard's stream is asked for at INBOX.QUESTION.SHARD.stream.0, and made if there is none. */
#include "clock.h"
#include "log.h"
#include "nats_carrier.h"
#include "text.h"

#include <stdio.h>
#include <stdlib.h>
#include <string.h>

enum {
    QUESTIONS = 256,    /* so many are under way at most; milliseconds: */
    DOUBT = 200,
    KNOWN = 10000,      /* after which it is asked again whether a stream is still the same, */
    AGAIN = 2000,       /* whether it is there, if nothing was answered, */
    AGAIN_MOST = 4000   /* and then more rarely: so long at most nothing leaves to a shard that is there again */
};

/* ---- Streams */

/* Asks for a stream, or has it made. */
static void ask_stream(struct nats_carrier *c, unsigned shard, const char *what, const char *text)
{
    char stream[NATS_NAME], reply[NATS_SUBJECT];
    nats_name_stream(shard, stream);
    write_whole(reply, sizeof reply, "%s.%lu.%u.stream.0", (const char *)c->inbox, ++c->questions, shard);
    c->made[shard].question = c->questions;
    nats_ask(c, what, stream, reply, text);
}

/* The question is answered, or waited for no longer. */
static void end_question(struct nats_carrier *c, unsigned shard)
{
    c->asked_count -= c->made[shard].question != 0;
    c->made[shard].question = 0;
}

/* Asks whether a stream is there, unless that is under way. Before the answer to the one before was due, nothing
 * is asked. */
void nats_look_for(struct nats_carrier *c, unsigned shard)
{
    uint64_t now = milliseconds();
    if (!krbrelay_pause_is_over(&c->made[shard].pause, now))
        return;
    if (c->made[shard].question != 0) { /* nothing was answered */
        end_question(c, shard);
        c->made[shard].is_known = 0;
        nats_report("a stream", NATS_TIMEOUT);
    }
    if (c->asked_count == QUESTIONS)
        return;
    c->asked_count++;
    if (c->made[shard].is_known || c->made[shard].pause.length == 0)
        krbrelay_pause_begin(&c->made[shard].pause, AGAIN, now);
    else
        krbrelay_pause_grow(&c->made[shard].pause, AGAIN_MOST, now);
    ask_stream(c, shard, "STREAM.INFO", "");
}

enum answer nats_make(struct carrier *base, unsigned shard, uint64_t *list)
{
    struct nats_carrier *c = (struct nats_carrier *)base;
    nats_look_for(c, shard);
    *list = c->made[shard].list;
    return c->made[shard].is_known ? ANSWER_DONE : ANSWER_FAULT;
}

/* Why the servers have no such stream. */
static void report_unmade(struct nats_carrier *c, natsMsg *message, unsigned shard)
{
    char name[NATS_NAME], fault[NATS_TEXT];
    nats_name_stream(shard, name);
    nats_read_description(message, fault);
    log_fact(LEVEL_ERROR, "stream_unmade", field_text("stream", name), field_number("replicas", c->replicas),
             field_text("fault", fault), field_text("text", "are there so many nodes? Tried again"));
}

/* Whether the stream can be the shard. That of receipts is used as it is. */
static int is_fit(struct nats_carrier *c, const struct nats_stream *it, unsigned shard)
{
    char name[NATS_NAME];
    nats_name_stream(shard, name);
    if (shard == NATS_RECEIPTS)
        nats_check_replicas(c, it);
    return shard == NATS_RECEIPTS || nats_judge_stream(c, name, it) == NATS_OK;
}

/* Reads the answer to the question about a stream: two that make the same one at once both get it. */
static void read_stream(struct nats_carrier *c, natsMsg *message, unsigned shard)
{
    char text[NATS_TEXT];
    struct nats_stream it;
    natsStatus status = nats_read_stream(message, &it);
    c->made[shard].is_known = status == NATS_OK && is_fit(c, &it, shard);
    if (status == NATS_NOT_FOUND) {
        nats_write_stream(c, shard, text);
        ask_stream(c, shard, "STREAM.CREATE", text);
        return;
    }
    if (status == NATS_OK)
        c->made[shard].list = it.created;
    else
        report_unmade(c, message, shard);
    end_question(c, shard);
    if (c->made[shard].is_known)
        krbrelay_pause_begin(&c->made[shard].pause, KNOWN, milliseconds());
}

/* ---- Frames */

enum answer nats_publish(struct carrier *base, unsigned shard, const char *session, uint32_t tag,
                         uint64_t number, const uint8_t *frame, size_t len)
{
    struct nats_carrier *c = (struct nats_carrier *)base;
    char subject[64], reply[NATS_SUBJECT];
    natsStatus status;
    write_whole(subject, sizeof subject, "krb.%u.%s", shard, session);
    write_whole(reply, sizeof reply, "%s.%llu.%u.%lu.%llu", (const char *)c->inbox,
                (unsigned long long)c->made[shard].list, shard, (unsigned long)tag,
                (unsigned long long)number);
    status = natsConnection_PublishRequest(c->connection, subject, reply, frame, (int)len);
    nats_let_leave(c);
    if (status == NATS_OK)
        return ANSWER_DONE;
    return status == NATS_MAX_PAYLOAD ? ANSWER_REFUSED : nats_report("publish", status);
}

/* ---- Confirmations */

/* Reads the answer to one frame: {"stream":"KRB_0","seq":7}, or an error, which isn't counted: 1 if the frame is
 * confirmed. */
static int read_answer(natsMsg *message, unsigned shard, struct confirmed *it)
{
    char fault[NATS_TEXT];
    if (nats_says(message, "\"error\"")) {
        nats_read_description(message, fault);
        log_fact(LEVEL_WARNING, "stream_takes_nothing", field_number("shard", shard), field_text("fault", fault),
                 field_text("text", "tried again"));
        return 0;
    }
    it->offset = nats_number_after(message, "\"seq\":");
    return it->offset > 0;
}

/* Reads what came: 1 if it confirms a frame. */
static int read_message(struct nats_carrier *c, natsMsg *message, struct confirmed *it)
{
    const char *place = natsMsg_GetSubject(message) + strlen((const char *)c->inbox);
    unsigned long tag, question;
    unsigned long long list, number;
    unsigned shard;
    int used = 0;
    if (sscanf(place, ".%lu.%u.stream.0%n", &question, &shard, &used) == 2 && used > 0) {
        if (shard <= NATS_RECEIPTS && question == c->made[shard].question)
            read_stream(c, message, shard);
        return 0;
    }
    if (sscanf(place, ".%llu.%u.%lu.%llu", &list, &shard, &tag, &number) != 4
        || shard >= CARRIER_SHARDS || list != c->made[shard].list)
        return 0;
    *it = (struct confirmed){ (uint32_t)tag, number, 0 };
    return read_answer(message, shard, it);
}

/* Nobody takes what was published: of which shard isn't told, so each is asked whether it is there.
 */
static void doubt_all(struct nats_carrier *c)
{
    uint64_t now = milliseconds();
    unsigned shard;
    if (now - c->doubted < DOUBT)
        return;
    c->doubted = now;
    for (shard = 0; shard <= NATS_RECEIPTS; shard++)
        if (c->made[shard].is_known && c->made[shard].question == 0)
            krbrelay_pause_begin(&c->made[shard].pause, 0, now);
}

int nats_read_one(struct nats_carrier *c, struct confirmed *list, size_t *count)
{
    natsMsg *message = NULL;
    natsStatus status = nats_next(c, c->answers, &message);
    if (status == NATS_OK)
        *count += read_message(c, message, &list[*count]) != 0;
    nats_drop(c, message);
    if (status == NATS_NO_RESPONDERS)
        doubt_all(c);
    return status == NATS_OK || status == NATS_NO_RESPONDERS;
}

enum answer nats_confirmed(struct carrier *base, struct confirmed *list, size_t room, size_t *count)
{
    struct nats_carrier *c = (struct nats_carrier *)base;
    int has_more = 1;
    *count = 0;
    nats_look_around(c);
    while (has_more && *count < room)
        has_more = nats_read_one(c, list, count);
    return ANSWER_DONE;
}
