/* Which texts are taken: those of a session in their order, and else in any.
 *
 * Each text is looked at once, and taken if its session has room (sender_turns.c) and none of its older
 * texts waits. Else the session has texts that wait: these are looked for by its name, the oldest first, once it
 * has room. What is left for good is of a session that is stopped or has no line. */
#include "clock.h"
#include "sender.h"
#include "text.h"

#include <stdio.h>
#include <string.h>

enum { LOOKED = 2048 }; /* texts of one pass */

static enum answer tell_unknown(struct sender *s, const char *session)
{
    if (strncmp(s->unknown, session, sizeof s->unknown - 1) == 0)
        return ANSWER_DONE;
    copy_cut(s->unknown, sizeof s->unknown, session);
    return sender_tell_stopped(s, session, s->kerberos == NULL
                               ? "it has texts, and no line among the sessions"
                               : "it has texts, and can't be a stream: has its name 1 to 31 letters,"
                                 " digits, '-' and '_', and the keytab the key of its session?", 0);
}

/* Texts that were taken, with none between them that wasn't. */
struct run { sqlite3_int64 first, last; };
struct runs { size_t count; struct run at[LOOKED]; };

static void note_run(struct runs *runs, sqlite3_int64 id, int goes_on)
{
    if (!goes_on)
        runs->at[runs->count++].first = id;
    runs->at[runs->count - 1].last = id;
}

static enum answer drop(struct sender *s, const struct runs *runs)
{
    size_t i;
    for (i = 0; i < runs->count; i++)
        if (outbox_drop_texts(&s->outbox, runs->at[i].first, runs->at[i].last) != ANSWER_DONE)
            return ANSWER_FAULT;
    return ANSWER_DONE;
}

/* Whether one text more of a session fits into the frames for which it has room. */
static int has_room(const struct sender *s, const struct sending *it)
{
    uint64_t frames = it->sealed - it->end.progress.next + (it->texts > 0);
    return frames < it->room || (it->texts > 0 && it->texts < s->options.batch && frames == it->room);
}

/* Takes a text, if its turn is now: *is_taken says so. */
static enum answer take_text(struct sender *s, struct sending **it, const struct waiting_text *text,
                        int *is_taken)
{
    enum answer answer;
    *is_taken = has_room(s, *it);
    if (!*is_taken) {
        (*it)->has_texts = 1;
        return ANSWER_DONE;
    }
    if ((*it)->is_unread && sender_read_history(s, *it) != ANSWER_DONE)
        return ANSWER_FAULT;
    list_add(&s->touched, *it, &(*it)->is_touched);
    if (text->body != NULL && sender_is_old(s, *it)) {
        answer = sender_renew(s, it, text->id);
        if (answer != ANSWER_DONE)
            return answer;
        list_add(&s->touched, *it, &(*it)->is_touched);
    }
    return seal_text(&s->sealing, *it, text);
}

/* Whether a session's texts from this one on are left for good. */
static int is_left(const struct sending *it, const struct waiting_text *text)
{
    return it->stopped_from > 0 && text->id >= it->stopped_from;
}

/* ---- Texts that are new */

static enum answer look_at(struct sender *s, const struct waiting_text *text, struct sending **it,
                           int *is_taken)
{
    enum answer found = sender_find(s, text->session, it);
    *is_taken = 0;
    if (found == ANSWER_FAULT)
        return ANSWER_FAULT;
    if (found == ANSWER_DONE)
        return tell_unknown(s, text->session) == ANSWER_DONE ? ANSWER_DONE : ANSWER_FAULT;
    if ((*it)->has_texts || is_left(*it, text))
        return ANSWER_DONE;
    return take_text(s, it, text, is_taken);
}

/* Looks at the texts after those that were looked at. */
static enum answer take_new(struct sender *s)
{
    struct statement *select = outbox_select_texts(&s->outbox, s->seen, LOOKED);
    struct sending *it;
    struct runs runs = { .count = 0 };
    struct waiting_text text = { .id = 0 };
    enum answer answer = ANSWER_DONE;
    sqlite3_int64 last = s->seen;
    int is_taken = 0;
    enum answer row = ANSWER_DONE;
    while (answer == ANSWER_DONE && (row = outbox_next_text(select, &text)) == ANSWER_FOUND) {
        int was_taken = is_taken;
        answer = look_at(s, &text, &it, &is_taken);
        if (is_taken)
            note_run(&runs, text.id, was_taken);
        last = text.id;
    }
    end_rows(select);
    if (answer != ANSWER_DONE)
        return answer;
    s->seen = last;
    return row == ANSWER_FAULT ? ANSWER_FAULT : drop(s, &runs);
}

/* ---- Texts that wait */

/* Takes the oldest texts of a session, while it has room: so many were looked at. If its stream goes on with its
 * next session, the rest is that one's. */
static enum answer take_waiting(struct sender *s, struct sending **it, size_t *looked)
{
    const char *name = (*it)->stream != NULL ? (*it)->stream->name : (*it)->of.name;
    struct statement *select = outbox_select_waiting(&s->outbox, name, s->seen, LOOKED - *looked);
    struct runs runs = { .count = 0 };
    struct waiting_text text = { .id = 0 };
    enum answer answer = ANSWER_DONE;
    sqlite3_int64 last = -1;
    int is_taken = 1;
    enum answer row = ANSWER_DONE;
    list_add(&s->touched, *it, &(*it)->is_touched); /* whatever comes of it: intake_give_up has its texts wait again */
    (*it)->has_texts = 0;
    while (answer == ANSWER_DONE && is_taken && (row = outbox_next_text(select, &text)) == ANSWER_FOUND) {
        if (is_left(*it, &text))
            break;
        answer = take_text(s, it, &text, &is_taken);
        if (is_taken)
            note_run(&runs, text.id, last >= 0 && text.id == last + 1);
        last = text.id;
        ++*looked;
    }
    end_rows(select);
    if (answer != ANSWER_DONE)
        return answer;
    if (*looked == LOOKED)
        (*it)->has_texts = 1;
    return row == ANSWER_FAULT ? ANSWER_FAULT : drop(s, &runs);
}

/* The session that texts under the name of this one are for now: that of a stream may have changed. */
static struct sending *now_of(struct sending *it)
{
    if (it->stream == NULL)
        return it;
    return it->stream->is_renewed ? it->stream->next : it->stream->now;
}

/* Takes texts of the sessions that have room again, in their turn. */
static enum answer take_sealable(struct sender *s)
{
    enum answer answer = ANSWER_DONE;
    size_t i, kept = 0, looked = 0, count = s->sealable.count;
    for (i = 0; i < count && answer == ANSWER_DONE && looked < LOOKED; i++) {
        struct sending *it = s->sealable.at[i];
        it->is_sealable = 0;
        it = now_of(it);
        if (it != NULL)
            answer = take_waiting(s, &it, &looked);
    }
    for (; i < s->sealable.count; i++)
        s->sealable.at[kept++] = s->sealable.at[i];
    s->sealable.count = kept;
    return answer;
}

int intake_wait(struct sender *s)
{
    return s->sealable.count > 0 || outbox_may_have_text(&s->outbox, s->seen);
}

enum answer intake_take(struct sender *s)
{
    enum answer answer = take_sealable(s);
    return answer == ANSWER_DONE ? take_new(s) : answer;
}

void intake_give_up(struct sender *s, sqlite3_int64 seen)
{
    size_t i;
    s->seen = seen;
    s->unknown[0] = 0;
    for (i = 0; i < s->touched.count; i++)
        ((struct sending *)s->touched.at[i])->has_texts = 1;
}
