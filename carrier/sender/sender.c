/* One round of a sender: it takes texts from the outbox, seals them into frames, which the outbox stores, and
 * publishes these until receipts say that they took effect (outbox.h, sender_turns.c). */
#include "sender.h"
#include "clock.h"
#include "signals.h"
#include "log.h"
#include "service.h"

#include <stdlib.h>

enum {
    IDLE = 20,          /* milliseconds until what can't be waited for */
    PAUSE = 100,        /* milliseconds after a fault, */
    KEPT = 20,          /* and between two transactions that store only how far sessions are; */
    GATHERING = 3,      /* after a round in which not much was done, so that the next one has more to do */
    FORGOTTEN = 1024    /* sessions that have ended and stay in memory, where it has fewer others */
};

#define MILLISECOND UINT64_C(1000000) /* in nanoseconds */
#define SECOND (1000 * MILLISECOND)
#define SILENCE (10 * SECOND)

/* ---- Sessions */

enum answer sender_tell_stopped(struct sender *s, const char *session, const char *reason, uint64_t since)
{
    log_fact(LEVEL_ERROR, "session_stopped", field_text("session", session),
             field_text("text", reason));
    return outbox_add_stopped(&s->outbox, session, reason, since);
}

enum answer sender_stop(struct sender *s, const char *session, const char *reason)
{
    enum answer begun = outbox_begin(&s->outbox);
    if (begun != ANSWER_DONE)
        return begun;
    if (sender_tell_stopped(s, session, reason, 0) == ANSWER_DONE && outbox_commit(&s->outbox) == ANSWER_DONE)
        return ANSWER_DONE;
    outbox_rollback(&s->outbox);
    return ANSWER_AGAIN;
}

enum answer sender_end_stop(struct sender *s, const char *session)
{
    enum answer begun = outbox_begin(&s->outbox);
    if (begun != ANSWER_DONE)
        return begun;
    if (outbox_end_stopped(&s->outbox, session) == ANSWER_DONE && outbox_commit(&s->outbox) == ANSWER_DONE)
        return ANSWER_DONE;
    outbox_rollback(&s->outbox);
    return ANSWER_AGAIN;
}

/* ---- What is stored, in one transaction */

/* Stores a session that begins by a ticket, and that it is closed. */
static enum answer keep_begun(struct sender *s, const struct sending *it)
{
    if (!it->is_stored && (outbox_add_begun(&s->outbox, it->begun, it->wrapped) != ANSWER_DONE
                           || outbox_forget_ended(&s->outbox, it->begun, &s->ended) != ANSWER_DONE))
        return ANSWER_FAULT;
    return it->is_closing ? outbox_close_begun(&s->outbox, it->begun) : ANSWER_DONE;
}

/* Stores what was sealed of a session. */
static enum answer keep_session(struct sender *s, const struct sending *it)
{
    if (it->begun != NULL && keep_begun(s, it) != ANSWER_DONE)
        return ANSWER_FAULT;
    if (it->sealed > it->end.progress.next
        && outbox_set_next(&s->outbox, &it->of, it->end.progress.next, it->sealed) != ANSWER_DONE)
        return ANSWER_FAULT;
    return ANSWER_DONE;
}

/* Seals what waits, and stores it. */
static enum answer keep_sealed(struct sender *s)
{
    enum answer answer = ANSWER_DONE;
    size_t i;
    for (i = 0; i < s->touched.count && answer == ANSWER_DONE; i++)
        answer = seal_rest(&s->sealing, s->touched.at[i]);
    if (answer == ANSWER_DONE)
        answer = seal_all(&s->sealing);
    for (i = 0; i < s->touched.count && answer == ANSWER_DONE; i++)
        answer = keep_session(s, s->touched.at[i]);
    return answer;
}

/* What is stored of a session that has gone on. */
static enum answer reached(struct sender *s, const struct sending *it, struct outbox_progress *now)
{
    const struct krbrelay_sending *end = &it->end;
    *now = (struct outbox_progress){ .next = it->stored.next, .carried = end->progress.carried, .done = end->done,
                                     .at = end->progress.at, .list = end->list,
                                     .shard = (int32_t)it->of.shard };
    return outbox_history(&s->outbox, &it->of, it->stored.done, &it->stored.history, end->done, &now->history);
}

/* Stores how far sessions are. */
static enum answer keep_dirty(struct sender *s)
{
    size_t i;
    for (i = 0; i < s->dirty.count; i++) {
        struct sending *it = s->dirty.at[i];
        struct outbox_progress now;
        if (reached(s, it, &now) != ANSWER_DONE || outbox_set_carried(&s->outbox, it->of.name, &now) != ANSWER_DONE
            || (now.done > it->stored.done && outbox_drop_done(&s->outbox, it->of.name, now.done) != ANSWER_DONE))
            return ANSWER_FAULT;
        it->drafted = now;
    }
    return ANSWER_DONE;
}

/* All of it is stored. Of sessions that have ended the carrier has no receipt to keep any more. */
static void note_kept(struct sender *s)
{
    size_t i;
    for (i = 0; i < s->ended.count; i++)
        s->carrier->forget(s->carrier, s->ended.at[i].shard, s->ended.at[i].name);
    s->ended.count = 0;
    for (i = 0; i < s->dirty.count; i++) {
        struct sending *it = s->dirty.at[i];
        it->stored = it->drafted;
        it->is_dirty = 0;
    }
    s->dirty.count = 0;
    for (i = 0; i < s->touched.count; i++) {
        struct sending *it = s->touched.at[i];
        (void)turns_has(it, krbrelay_lane_sealed(&s->lanes[it->lane].ends, it->place,
                                                   it->sealed - it->end.progress.next)); /* else it is told */
        it->stored.next = it->sealed;
        it->is_touched = 0;
        it->is_stored = 1;
        free(it->wrapped);
        it->wrapped = NULL;
        sender_note_renewed(it, 1);
        turns_note(s, it);
    }
    s->touched.count = 0;
}

/* The frames of this transaction are gone with it; none of them has left. How far the others are
 * carried stays known. */
static void give_up(struct sender *s, sqlite3_int64 seen)
{
    size_t i;
    outbox_rollback(&s->outbox);
    s->ended.count = 0;
    seal_forget(&s->sealing);
    intake_give_up(s, seen);
    for (i = 0; i < s->touched.count; i++) {
        struct sending *it = s->touched.at[i];
        (void)sender_read_history(s, it); /* where it can't be read now, it is before the next text is sealed */
        sender_note_renewed(it, 0);
        it->is_touched = 0;
        turns_note(s, it);
    }
    s->touched.count = 0;
}

/* A session whose text can't be sealed is stopped, and the rest is tried again without it. */
static enum answer store(struct sender *s, int with_texts)
{
    enum answer begun = outbox_begin(&s->outbox);
    enum answer answer = ANSWER_DONE;
    sqlite3_int64 seen = s->seen;
    if (begun != ANSWER_DONE)
        return begun;
    if (with_texts)
        answer = intake_take(s);
    if (answer == ANSWER_DONE)
        answer = keep_sealed(s);
    if (answer == ANSWER_DONE)
        answer = keep_dirty(s);
    if (answer == ANSWER_DONE && outbox_commit(&s->outbox) == ANSWER_DONE) {
        s->stored_at = milliseconds();
        note_kept(s);
        return ANSWER_DONE;
    }
    s->is_unknown = answer == ANSWER_DONE; /* the commit may have happened */
    give_up(s, seen);
    if (answer == ANSWER_STOPPED)
        return sender_stop(s, s->sealing.stopped->of.name, s->sealing.stopped->reason);
    return ANSWER_AGAIN;
}

/* ---- One round */

/* How many frames wait for the carrier alone: it hasn't answered since they left, or their shard can't be had. */
static uint64_t awaited(const struct sender *s)
{
    uint64_t frames = 0;
    size_t i;
    for (i = 0; i < s->lane_count; i++)
        frames += s->lanes[i].has_list ? s->lanes[i].awaited : s->lanes[i].uncarried;
    return frames;
}

/* Whether something is carried, or nothing waits for that. That the connection is away is shown where none waits, too. */
static uint64_t note_silence(struct sender *s, size_t rose)
{
    uint64_t backlog = awaited(s), now = nanoseconds();
    if (rose > 0 || (backlog == 0 && !s->carrier->is_away(s->carrier)))
        s->carried_at = now;
    if (rose > 0 || backlog == 0)
        s->told_at = now;
    return backlog;
}

/* Reports, each ten seconds, that nothing is carried though frames wait. */
static void report_silence(struct sender *s, size_t rose)
{
    uint64_t backlog = note_silence(s, rose), now = nanoseconds();
    if (now - s->told_at < SILENCE)
        return;
    log_fact(LEVEL_WARNING, "nothing_confirmed", field_number("frames", backlog),
             field_number("seconds", SILENCE / SECOND),
             field_text("text", "are most nodes of the carrier up? They are published again"));
    s->told_at = now;
}

/* Begins anew if the file of sessions has changed: those that no receipt stopped are tried again. */
static enum answer check_sessions(struct sender *s)
{
    enum answer begun;
    if (s->newer == NULL)
        s->newer = sessions_read_again(s->sessions);
    if (s->newer == NULL || s->untold.count > 0)
        return ANSWER_DONE; /* what stopped a session is stored first */
    begun = outbox_begin(&s->outbox);
    if (begun != ANSWER_DONE)
        return begun;
    if (outbox_drop_stopped(&s->outbox) != ANSWER_DONE || outbox_commit(&s->outbox) != ANSWER_DONE) {
        outbox_rollback(&s->outbox);
        return ANSWER_AGAIN;
    }
    sender_forget(s);
    sessions_forget(s->sessions);
    s->sessions = s->newer;
    s->newer = NULL;
    return ANSWER_DONE;
}

/* After a SIGHUP the sessions that were begun so far are old. */
static enum answer check_hangups(struct sender *s)
{
    uint64_t now = read_clock().seconds;
    enum answer answer;
    if (has_hung_up())
        s->is_hung_up = 1;
    if (!s->is_hung_up)
        return ANSWER_DONE;
    answer = outbox_set_renewed(&s->outbox, now);
    if (answer != ANSWER_DONE)
        return answer;
    s->old_up_to = now;
    s->is_hung_up = 0;
    log_fact(LEVEL_INFO, "streams_renewed", field_number("up_to", now),
             field_text("text", "each stream's next text begins a session with a new key"));
    return ANSWER_DONE;
}

/* Stores of the sessions of which that has changed why they stand, as krb_engine says. */
static enum answer keep_changed_stands(struct sender *s)
{
    size_t i;
    for (i = 0; i < s->all.count; i++) {
        struct sending *it = s->all.at[i];
        if (it->stands == it->stands_now || !it->is_stored)
            continue;
        if (outbox_set_stands(&s->outbox, it->of.name, it->stands_now) != ANSWER_DONE)
            return ANSWER_FAULT;
    }
    return ANSWER_DONE;
}

static void note_stands(struct sender *s)
{
    size_t i;
    for (i = 0; i < s->all.count; i++) {
        struct sending *it = s->all.at[i];
        if (it->is_stored)
            it->stands = it->stands_now;
    }
}

/* Whether it is a session of a stream that goes on with another one, and nothing of it waits for a receipt. */
static int has_ended(const struct sending *it)
{
    return it->begun != NULL && it->begun->is_closed && it->stream->now != it
           && it->end.done == it->end.progress.next;
}

/* Begins anew once so many sessions have ended that they take as much memory as all others. */
static enum answer forget_ended(struct sender *s)
{
    enum answer answer;
    size_t i, ended = 0;
    for (i = 0; i < s->all.count; i++)
        ended += has_ended(s->all.at[i]) != 0;
    if (ended < FORGOTTEN || 2 * ended < s->all.count || s->untold.count > 0 || !s->has_begun || s->is_unknown)
        return ANSWER_DONE;
    answer = store(s, 0);
    if (answer != ANSWER_DONE)
        return answer;
    log_fact(LEVEL_INFO, "sessions_forgotten", field_number("ended", ended),
             field_number("others", s->all.count - ended));
    sender_forget(s);
    return ANSWER_DONE;
}

static enum answer keep_stands(struct sender *s)
{
    uint64_t under_way, room, changed = 0;
    uint32_t settled;
    enum answer begun;
    size_t i;
    s->standing = 0;
    for (i = 0; i < s->all.count; i++) {
        struct sending *it = s->all.at[i];
        if (krbrelay_sending_state(&it->end, &under_way, &room, &settled, &it->stands_now) != KRBRELAY_OK
            || it->stopped_from == 1)
            it->stands_now = KRBRELAY_STANDS_NOT; /* one that is stopped has its reason in `stopped` */
        else if (it->uncarried > 0 && turns_is_shard_away(s, it))
            it->stands_now = KRBRELAY_STANDS_UNCONFIRMED;
        s->standing += it->stands_now != KRBRELAY_STANDS_NOT;
        changed += it->stands != it->stands_now && it->is_stored;
    }
    begun = changed > 0 ? outbox_begin(&s->outbox) : ANSWER_DONE;
    if (changed == 0 || begun != ANSWER_DONE)
        return begun;
    if (keep_changed_stands(s) == ANSWER_DONE && outbox_commit(&s->outbox) == ANSWER_DONE) {
        note_stands(s);
        return ANSWER_DONE;
    }
    outbox_rollback(&s->outbox);
    return ANSWER_AGAIN;
}

/* Each second: shows how it stands, looks whether the outbox is still this process's, also where
 * nothing is stored, and whether the file of sessions has changed. */
static enum answer look(struct sender *s)
{
    enum answer answer;
    if (nanoseconds() - s->looked_at < SECOND)
        return ANSWER_DONE;
    if (s->has_begun)
        (void)note_silence(s, 0); /* how much waits is reported with what is carried */
    s->looked_at = nanoseconds();
    sender_show(s);
    service_tell_alive();
    answer = outbox_owned(&s->outbox);
    if (answer != ANSWER_DONE)
        return answer == ANSWER_AGAIN ? ANSWER_DONE : answer;
    if (!outbox_is_there(&s->outbox) || s->carrier->is_closed(s->carrier))
        return ANSWER_FAULT; /* which is reported: a unit starts this program again */
    answer = keep_stands(s);
    if (answer == ANSWER_DONE)
        answer = check_sessions(s);
    if (answer == ANSWER_DONE)
        answer = forget_ended(s);
    if (answer == ANSWER_DONE)
        sender_try_keys(s);
    if (answer == ANSWER_DONE && s->kerberos != NULL)
        answer = check_hangups(s);
    return answer == ANSWER_AGAIN ? ANSWER_DONE : answer; /* then in a second */
}

/* Whether sessions that are held may leave now, or in a moment. */
static int may_get_tickets(struct sender *s)
{
    if (s->tickets == NULL)
        return 0;
    return !tickets_have_tried(s->tickets)
           || (s->unopened > 0 && tickets_have(s->tickets));
}

/* Whether all is done that can be. */
static int is_drained(struct sender *s, int texts)
{
    return s->options.drain && !texts && s->uncarried == 0 && s->dirty.count == 0 && s->untold.count == 0
           && s->deaf.count == 0 && !may_get_tickets(s);
}

/* Tells that a session is stopped, and stores the receipt that did it. */
static enum answer tell_stop(struct sender *s, struct sending *it)
{
    enum answer begun = outbox_begin(&s->outbox);
    if (begun != ANSWER_DONE)
        return begun;
    if (sender_tell_stopped(s, it->of.name, it->reason, it->stopped_since) != ANSWER_DONE
        || (it->stop != NULL && outbox_set_stop(&s->outbox, &it->of, it->stop) != ANSWER_DONE)
        || outbox_commit(&s->outbox) != ANSWER_DONE) {
        outbox_rollback(&s->outbox);
        return ANSWER_AGAIN;
    }
    free(it->stop);
    it->stop = NULL;
    return ANSWER_DONE;
}

/* Tells which sessions are stopped. */
static enum answer tell_untold(struct sender *s)
{
    enum answer answer = ANSWER_DONE;
    while (s->untold.count > 0 && answer == ANSWER_DONE) {
        answer = tell_stop(s, s->untold.at[s->untold.count - 1]);
        s->untold.count -= answer == ANSWER_DONE;
    }
    return answer == ANSWER_AGAIN ? ANSWER_DONE : answer;
}

/* Loads the sessions, once the last receipts were read and what stopped sessions is stored: at the start, where the file
 * of sessions has changed, and where it isn't known what is stored. 1 once they are loaded. */
static int have_begun(struct sender *s)
{
    uint64_t now = nanoseconds();
    if (s->has_begun && !s->is_unknown)
        return 1;
    if (!s->has_heard)
        receipts_hear(s);
    if (!s->has_heard && now - s->told_at >= SILENCE) {
        log_fact(LEVEL_WARNING, "receipts_unread", field_text("text", "the last receipts of all sessions can't be read:"
                 " nothing is sealed, and nothing leaves, until they are"));
        s->told_at = now;
    }
    if (!s->has_heard || s->untold.count > 0 || now < s->begins)
        return 0;
    if (s->is_unknown)
        sender_forget(s);
    s->is_unknown = 0;
    s->has_begun = sender_begin(s) == ANSWER_DONE;
    s->begins = now + SECOND;
    return s->has_begun;
}

static uint64_t earlier(uint64_t one, uint64_t other)
{
    return one < other ? one : other;
}

/* When there is something to do again after a round that did nothing, if nothing comes before. */
static uint64_t next_time(struct sender *s)
{
    uint64_t next = earlier(turns_next_time(s), receipts_next_time(s));
    if (s->dirty.count > 0)
        next = earlier(next, s->stored_at + KEPT);
    if (s->options.drain || s->untold.count > 0)
        next = earlier(next, milliseconds() + IDLE);
    return earlier(next, (s->looked_at + SECOND) / MILLISECOND + 1);
}

/* Stores what waits: 1 if there was anything, 0 if not. */
static int keep(struct sender *s, int texts, enum answer *answer)
{
    uint64_t began = nanoseconds(), sealing = s->sealing.nanoseconds;
    if (!texts && (s->dirty.count == 0 || milliseconds() - s->stored_at < KEPT))
        return 0;
    *answer = store(s, texts);
    if (*answer == ANSWER_AGAIN)
        s->rests = milliseconds() + PAUSE;
    s->storing += nanoseconds() - began - (s->sealing.nanoseconds - sealing);
    return 1;
}

/* When the next round is due after one that has left nothing, if nothing comes before. */
static uint64_t rest(struct sender *s, int has_done)
{
    uint64_t now = milliseconds(), next = next_time(s);
    if (s->sealable.count > 0 || next <= now || (has_done && intake_wait(s)))
        return 0;
    if (has_done)
        s->rests = now + GATHERING;
    return has_done ? s->rests : next;
}

/* Stores what waits, and publishes what is stored. 1 if all is done that can be. */
static int relay(struct sender *s, enum answer *answer, uint64_t *until)
{
    uint64_t began;
    size_t rose;
    int has_kept, has_more, texts = intake_wait(s);
    if (is_drained(s, texts))
        return 1;
    has_kept = keep(s, texts, answer);
    if (outbox_is_lost(*answer))
        return 1;
    began = nanoseconds();
    receipts_hear(s);
    has_more = turns_all(s);
    rose = turns_count_carried(s);
    s->hears = 1;
    report_silence(s, rose);
    s->carrying += nanoseconds() - began;
    *until = has_more ? 0 : rest(s, has_kept || rose > 0);
    return 0;
}

int sender_step(struct sender *s, enum answer *answer, uint64_t *until)
{
    *answer = ANSWER_DONE;
    *until = s->rests;
    s->hears = 0;
    if (milliseconds() < s->rests)
        return 0;
    *answer = look(s);
    if (*answer == ANSWER_DONE)
        *answer = tell_untold(s);
    if (!outbox_is_lost(*answer) && s->has_lost)
        *answer = ANSWER_FAULT; /* there was no memory for a receipt: it is read at the next start */
    if (outbox_is_lost(*answer))
        return 1;
    if (have_begun(s))
        return relay(s, answer, until);
    *until = milliseconds() + IDLE;
    return 0;
}

/* ---- */

static enum answer make_memory(struct sender *s)
{
    int is_made = seal_begin(&s->sealing, &s->outbox, s->options.batch) == ANSWER_DONE;
    s->opening = malloc(OPENING);
    if (is_made && s->opening != NULL)
        return ANSWER_DONE;
    log_system("out_of_memory", "sender");
    return ANSWER_FAULT;
}

static enum answer open_kerberos(struct sender *s)
{
    s->kerberos = kerberos_open(&s->options.kerberos, s->options.kerberos.client);
    s->tickets = s->kerberos != NULL ? tickets_open(&s->options.kerberos) : NULL;
    return s->tickets != NULL ? ANSWER_DONE : ANSWER_FAULT;
}

enum answer sender_open(struct sender *s)
{
    s->sessions = s->options.sessions != NULL ? sessions_read(s->options.sessions)
                                              : sessions_empty();
    if (s->sessions == NULL || make_memory(s) != ANSWER_DONE)
        return ANSWER_FAULT;
    s->carrier = carrier_open(&s->options.carrier);
    if (s->carrier == NULL) /* the outbox stays with whoever has it */
        return ANSWER_FAULT;
    if (s->options.kerberos.keytab != NULL && open_kerberos(s) != ANSWER_DONE)
        return ANSWER_FAULT;
    if (outbox_open(&s->outbox, s->options.outbox) != ANSWER_DONE
        || outbox_bound(&s->outbox, s->options.most_waiting) != ANSWER_DONE)
        return ANSWER_FAULT;
    if (s->kerberos != NULL && outbox_wrap_anew(&s->outbox, s->kerberos) != ANSWER_DONE)
        return ANSWER_FAULT;
    if (outbox_renewed(&s->outbox, &s->old_up_to) != ANSWER_DONE || sender_begin_showing() != 0)
        return ANSWER_FAULT;
    if (s->options.metrics != NULL && service_listen(s->options.metrics) != 0)
        return ANSWER_FAULT;
    s->carried_at = s->told_at = nanoseconds();
    return ANSWER_DONE;
}

void sender_close(struct sender *s)
{
    service_end();
    sender_forget(s);
    receipts_forget(s);
    outbox_close(&s->outbox);
    if (s->tickets != NULL)
        tickets_close(s->tickets);
    if (s->kerberos != NULL)
        kerberos_close(s->kerberos);
    free(s->opening);
    if (s->carrier != NULL)
        s->carrier->close(s->carrier);
    sessions_forget(s->sessions);
    sessions_forget(s->newer);
    seal_end(&s->sealing);
}
