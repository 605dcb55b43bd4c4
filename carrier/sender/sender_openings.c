/* The streams of a sender: what an application calls a stream is sent as sessions that begin by
 * tickets, one after the other, with a key each. */
#include "clock.h"
#include "log.h"
#include "sender.h"
#include "text.h"

#include <search.h>
#include <stdlib.h>
#include <string.h>

#define NUMBERS UINT64_C(2147483648) /* of one session, of 2^32 that there are */
#define LATER UINT64_C(2000000000)   /* nanoseconds until a key that couldn't be read is tried again, */
enum { MOST_TRIES = 7 };             /* doubled so often at most: up to some four minutes */

/* ---- Sessions of streams */

/* Adds a session that is stored, or that begins: then it takes the wrapped key. NULL after a fault of the outbox, or
 * out of memory. */
static struct sending *add_session(struct sender *s, struct stream *stream, const struct begun *it,
                           struct wrapped *wrapped)
{
    struct begun *copy = malloc(sizeof *copy);
    struct sending *added = NULL;
    struct session of;
    if (copy != NULL) {
        *copy = *it;
        if (opening_session(s->kerberos, &it->opened, it->opened.shard, &of) == 0)
            added = sender_add(s, &of, copy);
        explicit_bzero(&of, sizeof of);
    }
    if (added == NULL) {
        if (copy != NULL)
            explicit_bzero(copy, sizeof *copy);
        free(copy);
        return NULL;
    }
    added->stream = stream;
    added->wrapped = wrapped;
    added->is_stored = wrapped == NULL;
    return added;
}

/* The shard of a stream's session after `last`, or of the first one if that is NULL. */
static unsigned shard_of(const struct sender *s, const struct stream *stream,
                         const struct begun *last)
{
    return last != NULL ? last->opened.shard : kerberos_shard(&s->options.kerberos, stream->name);
}

/* Adds a session for which all but the key is said. ANSWER_DONE: there is no key under which it could be wrapped. */
static enum answer add_new(struct sender *s, struct stream *stream, struct begun *it, struct sending **added)
{
    struct wrapped *wrapped = malloc(sizeof *wrapped);
    int can_wrap = 0;
    *added = NULL;
    if (wrapped == NULL || opening_draw(s->kerberos, &it->opened) != 0) {
        free(wrapped);
        return ANSWER_FAULT;
    }
    can_wrap = outbox_wrap(s->kerberos, it, wrapped) == 0;
    if (can_wrap)
        *added = add_session(s, stream, it, wrapped);
    if (*added != NULL)
        return ANSWER_FOUND;
    free(wrapped);
    return can_wrap ? ANSWER_FAULT : ANSWER_DONE;
}

/* Begins the next session of a stream. Its key is wrapped before anything is sealed under it, so that no transaction,
 * which has texts of other sessions too, waits for the keytab. Answers as add_new. */
static enum answer begin_session(struct sender *s, struct stream *stream, const struct begun *last,
                                 struct sending **added)
{
    struct begun it = { 0 };
    enum answer answer;
    memcpy(it.opened.stream, stream->name, sizeof it.opened.stream);
    it.turn = 1;
    it.opened.shard = shard_of(s, stream, last);
    it.opened.says_shard = 1;
    it.since = read_clock().seconds;
    if (it.since <= s->old_up_to)
        it.since = s->old_up_to + 1; /* SIGHUP came in this second */
    if (last != NULL) {
        memcpy(it.opened.before, last->opened.name, sizeof it.opened.before);
        it.turn = last->turn + 1;
    }
    answer = add_new(s, stream, &it, added);
    explicit_bzero(&it, sizeof it);
    return answer;
}

/* ---- Streams */

/* Makes a stream what the outbox has of it: answers as sender_find, ANSWER_DONE if its key can't be read, or wrapped. */
static enum answer load_stream(struct sender *s, struct stream *stream)
{
    struct begun last;
    enum answer answer = ANSWER_DONE, found = outbox_find_stream(&s->outbox, s->kerberos, stream->name, &last);
    if (found == ANSWER_FOUND && !last.is_closed)
        answer = sender_find_begun(s, last.opened.name, &stream->now);
    else if (found != ANSWER_FAULT)
        answer = begin_session(s, stream, found == ANSWER_FOUND ? &last : NULL, &stream->now);
    explicit_bzero(&last, sizeof last);
    return answer;
}

static struct stream *stream_of(struct sender *s, const char *name)
{
    void *found = tfind(name, &s->streams, by_name);
    struct stream *stream = found != NULL ? *(struct stream **)found : calloc(1, sizeof *stream);
    if (found != NULL || stream == NULL)
        return stream;
    memcpy(stream->name, name, strlen(name));
    if (tsearch(stream, &s->streams, by_name) != NULL)
        return stream;
    free(stream);
    return NULL;
}

enum answer sender_find_begun(struct sender *s, const char *name, struct sending **it)
{
    void *found = tfind(name, &s->by_name, by_name);
    struct stream *stream;
    struct begun row;
    enum answer found_row;
    *it = found != NULL ? *(struct sending **)found : NULL;
    if (*it != NULL)
        return ANSWER_FOUND;
    found_row = outbox_find_begun(&s->outbox, s->kerberos, name, &row);
    stream = found_row == ANSWER_FOUND ? stream_of(s, row.opened.stream) : NULL;
    if (stream != NULL)
        *it = add_session(s, stream, &row, NULL);
    explicit_bzero(&row, sizeof row);
    if (found_row != ANSWER_FOUND)
        return ANSWER_DONE; /* a fault is reported: its frames stay until its key can be read */
    return *it != NULL ? ANSWER_FOUND : ANSWER_FAULT;
}

/* The key of a stream that was left can be read now. In a transaction. */
static enum answer end_stop(struct sender *s, struct stream *stream)
{
    stream->key = STREAM_TAKEN;
    s->key_tries = 0;
    log_fact(LEVEL_INFO, "stream_taken_up", field_text("stream", stream->name),
             field_text("text", "its key can be read: its texts are taken again, in their order"));
    return outbox_end_stopped(&s->outbox, stream->name);
}

enum answer sender_find_stream(struct sender *s, const char *name, struct sending **it)
{
    struct stream *stream;
    enum answer answer = ANSWER_FOUND;
    *it = NULL;
    if (!sessions_may_have(name))
        return ANSWER_DONE;
    stream = stream_of(s, name);
    if (stream == NULL)
        return ANSWER_FAULT;
    if (stream->now == NULL)
        answer = stream->key == STREAM_UNREADABLE ? ANSWER_DONE : load_stream(s, stream);
    if (answer == ANSWER_DONE) {
        stream->key = STREAM_UNREADABLE; /* so that no later text of it is taken before this one */
        sender_note_unreadable(s);
    }
    if (answer == ANSWER_FOUND && stream->key == STREAM_TRIED && end_stop(s, stream) != ANSWER_DONE)
        return ANSWER_FAULT;
    if (answer == ANSWER_FOUND)
        *it = stream->is_renewed ? stream->next : stream->now;
    return answer;
}

void sender_note_unreadable(struct sender *s)
{
    unsigned doubled = s->key_tries < MOST_TRIES ? s->key_tries : MOST_TRIES;
    if (s->keys_at == 0)
        s->keys_at = nanoseconds() + (LATER << doubled);
}

static void try_again(const void *node, VISIT visit, int depth)
{
    struct stream *stream = *(struct stream *const *)node;
    (void)depth;
    if ((visit == postorder || visit == leaf) && stream->key == STREAM_UNREADABLE)
        stream->key = STREAM_TRIED;
}

void sender_try_keys(struct sender *s)
{
    if (s->keys_at == 0 || nanoseconds() < s->keys_at)
        return;
    s->keys_at = 0;
    s->key_tries++;
    twalk(s->streams, try_again);
    s->seen = 0;
    s->has_begun = 0; /* those that are loaded stay */
}

int sender_is_after(const struct sender *s, const struct sending *it)
{
    void *found = tfind(it->begun->opened.before, &s->by_name, by_name);
    const struct sending *before = found != NULL ? *(struct sending **)found : NULL;
    return before != NULL && before->end.progress.carried < before->end.progress.next;
}

/* ---- A new key */

enum answer sender_note_before(struct sender *s, struct sending *it)
{
    struct opened *opened = &it->begun->opened;
    struct session of = { .first = 1, .has_opening = 1 };
    struct outbox_progress row;
    if (opened->before[0] == 0 || opened->closed.is_known || !copy_text(of.name, sizeof of.name, opened->before))
        return ANSWER_DONE;
    if (outbox_load(&s->outbox, &of, &row) != ANSWER_DONE)
        return ANSWER_FAULT;
    return outbox_history(&s->outbox, &of, row.done, &row.history, row.next, &opened->closed);
}

int sender_is_old(const struct sender *s, const struct sending *it)
{
    const struct begun *begun = it->begun;
    uint64_t now = read_clock().seconds;
    if (begun == NULL || it->sealed == 1 || it->stream->is_renewed)
        return 0; /* it has a line, or nothing was sealed yet, or it begins in this transaction */
    return begun->since + s->options.life <= now || begun->since > now + 1 /* the clock was ahead */
           || begun->since <= s->old_up_to || it->sealed > NUMBERS;
}

enum answer sender_renew(struct sender *s, struct sending **it, sqlite3_int64 id)
{
    struct sending *old = *it;
    struct stream *stream = old->stream;
    enum answer answer = stream->next != NULL ? ANSWER_FOUND : begin_session(s, stream, old->begun, &stream->next);
    if (answer != ANSWER_FOUND)
        return answer;
    answer = seal_close(&s->sealing, old, id);
    if (answer != ANSWER_DONE)
        return answer;
    old->is_closing = stream->is_renewed = 1;
    *it = stream->next;
    return ANSWER_DONE;
}

void sender_note_renewed(struct sending *it, int is_kept)
{
    struct stream *stream = it->stream;
    if (!it->is_closing)
        return;
    it->is_closing = stream->is_renewed = 0;
    if (!is_kept)
        return;
    it->begun->is_closed = 1;
    it->has_texts = 0; /* they are the next one's */
    stream->now = stream->next;
    stream->next = NULL;
}

void sender_forget_streams(struct sender *s)
{
    tdestroy(s->streams, free);
    s->streams = NULL;
}
