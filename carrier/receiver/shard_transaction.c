/* One transaction of a shard (shard.h): the effects of frames that follow one another, what their sessions demand next,
 * and the new offset.
 *
 * It has the frames that were fetched, until krb_receiver says that it is full, or the program is to end: what was taken until
 * then is stored, and the next transaction has the rest. A transaction that krb_receiver has alone is one of a frame, in
 * which each text is waited for: so what fails is named, and what others did isn't done again. */
#include "clock.h"
#include "effects.h"
#include "signals.h"
#include "stored_openings.h"
#include "log.h"
#include "shard.h"

#include <string.h>

/* ---- What is stored */

/* The row that this transaction leaves. */
static void draft(struct receiving *it)
{
    const struct krbrelay_row *row = &it->end_row;
    it->drafted.next = row->number;
    it->drafted.closed = row->closed;
    memcpy(it->drafted.history.bytes, row->history, sizeof row->history);
    if (row->closed)
        it->drafted.missed = MISSED_NOTHING;
}

static enum answer advance_all(struct shard *s)
{
    size_t i;
    for (i = 0; i < s->changed.count; i++) {
        struct receiving *it = s->changed.at[i];
        draft(it);
        if (store_advance(s->store, it->of.name, &it->stored, &it->drafted) != ANSWER_DONE)
            return ANSWER_FAULT;
        if (it->opened_at > 0 && openings_add(s->store, s->kerberos, it->opened) != ANSWER_DONE)
            return ANSWER_FAULT;
    }
    return ANSWER_DONE;
}

/* Keeps of the sessions whose openings were fetched those that weren't taken yet. */
static void keep_opened(struct shard *s)
{
    size_t i, kept = 0;
    for (i = 0; i < s->opened_now.count; i++)
        if (((struct receiving *)s->opened_now.at[i])->opened_at > 0)
            s->opened_now.at[kept++] = s->opened_now.at[i];
    s->opened_now.count = kept;
}

static void count_stored(struct shard *s)
{
    s->counts.texts += s->counted.texts;
    s->counts.bytes += s->counted.bytes;
    s->counts.accepted += s->counted.accepted;
    s->counts.aside += s->counted.aside;
    s->counts.commits++;
    s->open -= s->counted.closed < s->open ? s->counted.closed : s->open;
}

/* The transaction took effect. ANSWER_FAULT: krb_receiver doesn't say up to where. */
static enum answer note_stored(struct shard *s)
{
    size_t i;
    enum answer answer = krbrelay_shard_stored(&s->ends) == KRBRELAY_OK ? shard_look(s) : ANSWER_FAULT;
    for (i = 0; i < s->changed.count; i++) {
        struct receiving *it = s->changed.at[i];
        it->drafted.is_stored = 1;
        s->ended += it->drafted.closed && !it->stored.closed;
        it->stored = it->drafted;
        it->is_changed = 0;
        it->opened_at = 0;
    }
    keep_opened(s);
    s->changed.count = 0;
    s->done_parts.parts = 0;
    count_stored(s);
    return answer;
}

/* ---- The store's transaction */

/* It moves the shard at first, so that another receiver is noticed before an effect is asked for. */
static enum answer begin_transaction(struct shard *s, uint64_t to)
{
    const struct reached from = { s->reading.stored.list, s->reading.stored.offset };
    const struct reached reached = { s->reading.read.list, to };
    s->moved_to = to;
    return store_begin(s->store, s->number, &from, &reached);
}

/* A command does what no rollback undoes, and may take long: no transaction is open meanwhile, and whether another
 * receiver was faster is asked before. */
static uint32_t ask_fence(struct shard *s)
{
    struct reached reached;
    uint32_t found = KRBRELAY_FOUND_SAME;
    if (store_reached(s->store, s->number, &reached) != ANSWER_DONE
        || krbrelay_shard_found(&s->ends, reached.list, reached.offset, &found) != KRBRELAY_OK)
        return KRBRELAY_FAILURE_FAULT;
    return found == KRBRELAY_FOUND_SAME ? SHARD_DONE : KRBRELAY_FAILURE_FENCED;
}

static uint32_t open_store(struct shard *s, int end, uint32_t alone)
{
    s->is_begun = 0;
    if (effects_are_outside())
        return ask_fence(s);
    s->is_begun = 1;
    if (begin_transaction(s, s->frames[end - 1].offset) != ANSWER_DONE)
        return KRBRELAY_FAILURE_FAULT;
    if (alone && s->store->checks_at_once != NULL
        && s->store->run(s->store, s->store->checks_at_once, NULL, 0, ANY_ROWS) != ANSWER_DONE)
        return KRBRELAY_FAILURE_FAULT;
    return SHARD_DONE;
}

enum answer shard_begin_late(struct shard *s)
{
    if (s->is_begun)
        return ANSWER_DONE;
    s->is_begun = 1;
    return begin_transaction(s, s->frames[s->place].offset);
}

/* Moves the shard to where the frames that were taken end. */
static enum answer place_offset(struct shard *s, int next)
{
    const struct reached before = { s->reading.read.list, s->moved_to };
    const struct reached now = { s->reading.read.list, s->frames[next - 1].offset };
    s->place = next - 1;
    if (shard_begin_late(s) != ANSWER_DONE)
        return ANSWER_FAULT;
    return now.offset == s->moved_to ? ANSWER_DONE : store_move(s->store, s->number, &before, &now);
}

/* A fault of the store. Where it says that it refuses values, those of a text may be the reason. No text of a command has
 * values in it. */
static uint32_t fault_of(const struct shard *s)
{
    return !effects_are_outside() && s->store->refusal(s->store) != NULL ? KRBRELAY_FAILURE_REFUSED : KRBRELAY_FAILURE_FAULT;
}

/* Stores the frames up to this one. */
static uint32_t commit(struct shard *s, int next)
{
    enum answer answer = place_offset(s, next);
    if (answer == ANSWER_DONE)
        answer = advance_all(s);
    if (answer == ANSWER_DONE)
        answer = s->store->commit(s->store);
    else
        s->store->rollback(s->store);
    if (answer != ANSWER_DONE)
        return answer == ANSWER_ELSEWHERE ? KRBRELAY_FAILURE_FENCED : fault_of(s);
    if (note_stored(s) != ANSWER_DONE)
        return KRBRELAY_FAILURE_FAULT; /* never: a transaction is under way */
    shard_leave(s, next);
    s->next = next;
    return SHARD_DONE;
}

/* ---- Its frames */

/* Whether it takes no frame more. */
static int is_full(struct shard *s)
{
    return s->is_last || krbrelay_shard_is_full(&s->ends, milliseconds()) || is_ending();
}

/* What the answer to an effect is for krb_receiver. */
static uint32_t failure_of(const struct shard *s, enum answer answer)
{
    switch (answer) {
    case ANSWER_DONE: return SHARD_DONE;
    case ANSWER_REFUSED: return KRBRELAY_FAILURE_REFUSED;
    case ANSWER_LATER: return KRBRELAY_FAILURE_LATER;
    default: return fault_of(s);
    }
}

/* Takes frames from the next one on: *next is the first that wasn't. */
static uint32_t take_frames(struct shard *s, int end, int alone, int *next)
{
    enum answer answer = ANSWER_DONE;
    int i = s->next;
    s->shown_at = nanoseconds();
    s->is_last = 0;
    s->counted = (struct counted){ .texts = 0 };
    s->call.first = s->call.count = 0;
    while (i < end && (i == s->next || !is_full(s))) {
        answer = shard_take(s, i, end, alone);
        if (answer != ANSWER_DONE)
            break;
        shard_note_alive(s);
        i++;
    }
    *next = i;
    return failure_of(s, answer);
}

/* The frame of this place isn't taken, or what ends with it isn't stored. */
static struct transacted fail(struct shard *s, uint32_t failure, int place)
{
    struct transacted ended = { failure, KRBRELAY_THEN_WAIT };
    if (krbrelay_shard_failed(&s->ends, failure, s->frames[place].offset, &ended.then) != KRBRELAY_OK)
        ended.then = KRBRELAY_THEN_WAIT; /* never: there is a shard, and such a failure */
    return ended;
}

/* Stores the frames up to this one: how that ended. */
static struct transacted store(struct shard *s, int next)
{
    uint32_t failure = commit(s, next);
    return failure == SHARD_DONE ? (struct transacted){ SHARD_DONE, KRBRELAY_THEN_STORE } : fail(s, failure, next - 1);
}

/* The frame of this place isn't taken. What krb_receiver says is to be stored is: what a command did before, which no
 * rollback undoes. */
static struct transacted give_up(struct shard *s, uint32_t failure, int place)
{
    struct transacted ended = fail(s, failure, place);
    if (ended.then == KRBRELAY_THEN_STORE)
        return store(s, place);
    if (s->is_begun)
        s->store->rollback(s->store);
    return ended;
}

static struct transacted transact(struct shard *s)
{
    uint32_t alone = 0, failure = KRBRELAY_FAILURE_FAULT;
    int next = s->next, end;
    s->is_begun = 0;
    if (krbrelay_shard_begin(&s->ends, s->frames[next].offset, milliseconds(), &alone) != KRBRELAY_OK)
        return give_up(s, failure, next); /* never: none is under way */
    end = alone ? next + 1 : s->fetched;
    if (shard_load_frames(s, next, end) == ANSWER_DONE)
        failure = open_store(s, end, alone);
    if (failure == SHARD_DONE)
        failure = take_frames(s, end, (int)alone, &next);
    return failure == SHARD_DONE ? store(s, next) : give_up(s, failure, next);
}

struct transacted shard_transact(struct shard *s)
{
    struct transacted ended;
    s->moment = read_clock();
    s->lap = nanoseconds();
    ended = transact(s);
    if (ended.failure != SHARD_DONE && s->opened_now.count > 0)
        shard_forget(s); /* what the openings brought isn't stored */
    return ended;
}
