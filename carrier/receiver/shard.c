#include "shard.h"
#include "clock.h"
#include "effects.h"
#include "log.h"
#include "text.h"

#include <stdio.h>
#include <stdlib.h>
#include <string.h>

#define MILLISECOND UINT64_C(1000000) /* nanoseconds */
#define SECOND (1000 * MILLISECOND)
#define QUIET (5 * SECOND)

enum {
    FORGOTTEN = 1024,
    WAIT = 100,             /* milliseconds after a fault, and until a list that isn't there is asked for again, */
    WAIT_MOST = 1000,       /* then twice as long each time, up to this, */
    GATHERING = 5, FEW = 64 /* and after so few frames, so that more are taken together */
};

/* Nanoseconds since the last call. */
static uint64_t lap(struct shard *s)
{
    uint64_t before = s->lap;
    s->lap = nanoseconds();
    return s->lap - before;
}

/* ---- A frame that is refused */

/* The opener of a session, which demands nothing but its mode. */
static enum krbrelay_answer make_opener(struct receiving *of)
{
    const struct session *session = &of->of;
    const struct krbrelay_expect expect = { .mode = session->mode };
    return krbrelay_opener_new(&of->opener, session->etype, session->key, session->key_len, &expect);
}

static enum krbrelay_answer open_any(struct shard *s, struct receiving *of, const struct carried *it,
                                     struct krbrelay_carried *carried)
{
    const struct krbrelay_demand any = { 0 };
    const struct krbrelay_moment now = read_clock();
    size_t size;
    return krbrelay_opener_open(&of->opener, it->frame, it->len, &any, &now, s->bytes + s->call.used,
                                KRBRELAY_FRAME_LIMIT - s->call.used, &size, carried);
}

/* Opens the frame at any number, time and addresses, and finds its number, unless it is refused or tells none. After a
 * fault, such as out of memory, nothing is known of it. The session's opener is made when it is first needed. */
static enum answer open_at_any_number(struct shard *s, struct receiving *of, const struct carried *it, uint64_t *number)
{
    struct krbrelay_carried carried;
    enum krbrelay_answer answer = open_any(s, of, it, &carried);
    if (answer == KRBRELAY_EMPTY) {
        answer = make_opener(of);
        if (answer == KRBRELAY_OK)
            answer = open_any(s, of, it, &carried);
    }
    if (krbrelay_is_refusal(answer))
        return ANSWER_DONE;
    if (answer != KRBRELAY_OK) {
        report_answer("frame_unopened", it->session, 0, answer);
        return ANSWER_FAULT;
    }
    of->has_opened = 1;
    *number = carried.number;
    return carried.has_number ? ANSWER_FOUND : ANSWER_DONE;
}

/* The session's row is to be compared and moved. */
static void note_changed(struct shard *s, struct receiving *it)
{
    list_add(&s->changed, it, &it->is_changed);
}

static void goes_on(struct shard *s, struct receiving *it)
{
    size_t i = 0;
    if (!it->is_standing)
        return;
    while (s->standing.at[i] != it)
        i++;
    s->standing.at[i] = s->standing.at[--s->standing.count];
    it->is_standing = 0;
}

/* What the store says of it for who looks. */
static void note_missed(struct shard *s, struct receiving *of, uint32_t missed)
{
    if (of->drafted.missed != missed)
        note_changed(s, of);
    of->drafted.missed = missed;
}

static void tell_early(struct shard *s, const struct receiving *of, const struct carried *it, uint64_t number)
{
    log_fact(LEVEL_WARNING, "frame_early", field_text("session", it->session),
             field_number("shard", s->number), field_number("offset", it->offset),
             field_number("number", number), field_number("demanded", of->end_row.number),
             field_text("text", "it has to come again after the demanded one, which is asked for"));
}

static void tell_refused(struct shard *s, const struct carried *it, enum krbrelay_answer answer)
{
    char text[KRBRELAY_TEXT_SIZE];
    shard_count_refused(&s->counts, answer);
    answer_text(answer, text);
    log_fact(LEVEL_WARNING, "frame_refused", field_text("session", it->session),
             field_number("shard", s->number), field_number("offset", it->offset),
             field_number("answer", (uint64_t)answer), field_text("text", text));
    if (answer == KRBRELAY_SKEW)
        log_fact(LEVEL_WARNING, "session_stands", field_text("session", it->session),
                 field_number("shard", s->number),
                 field_text("text", "until a frame comes in time: are the clocks right, and is"
                                    " --skew above the time that the carrier keeps frames?"));
}

/* The transaction has a frame of a session, of which this is known: what it is taken for. */
static enum answer take_seen(struct shard *s, struct receiving *of, const struct carried *it,
                             const struct krbrelay_seen *seen, uint32_t *outcome)
{
    struct krbrelay_receiving end;
    enum krbrelay_answer answer = krbrelay_shard_take(&s->ends, of->place, it->frame, it->len, seen, it->offset, outcome);
    if (answer == KRBRELAY_OK)
        answer = krbrelay_shard_session(&s->ends, of->place, &end);
    if (answer == KRBRELAY_OK)
        of->end_row = end.drafted;
    else
        report_answer("frame_unopened", it->session, of->end_row.number, answer);
    return answer == KRBRELAY_OK ? ANSWER_DONE : ANSWER_FAULT;
}

/* A frame that wasn't accepted, by what it was taken for. */
static void note_unaccepted(struct shard *s, struct receiving *of, const struct carried *it,
                            const struct krbrelay_seen *seen, uint32_t outcome, enum krbrelay_answer answer)
{
    if (outcome == KRBRELAY_OUTCOME_REPEAT) {
        s->counts.repeats++;
        return;
    }
    if (outcome == KRBRELAY_OUTCOME_EARLY) {
        s->counts.early++;
        note_missed(s, of, MISSED_EARLY);
        tell_early(s, of, it, seen->opened);
    } else {
        tell_refused(s, it, answer);
    }
    if (outcome == KRBRELAY_OUTCOME_UNSETTLED)
        note_missed(s, of, missed_by(answer));
    if (outcome != KRBRELAY_OUTCOME_UNKNOWN || !of->has_opened) /* else it is nobody's */
        list_add(&s->standing, of, &of->is_standing);
}

/* Finds the number of a refused frame, if it is the session's, as open_at_any_number. One that passes all checks but the
 * number's was opened already. */
static enum answer find_number(struct shard *s, struct receiving *of, const struct carried *it,
                               enum krbrelay_answer answer, uint64_t *number)
{
    if (answer == KRBRELAY_AFTER_CLOSE)
        return ANSWER_DONE;
    if (answer != KRBRELAY_BADORDER || *number == UINT64_MAX)
        return open_at_any_number(s, of, it, number);
    of->has_opened = 1;
    return ANSWER_FOUND;
}

/* A frame was refused, and this number was told. Out of memory and the like is no refusal, and a fault. */
static enum answer take_refusal(struct shard *s, struct receiving *of, const struct carried *it,
                                enum krbrelay_answer answer, uint64_t number)
{
    struct krbrelay_seen seen = { 0 };
    uint32_t outcome = 0;
    enum answer opens;
    if (!krbrelay_is_refusal(answer)) {
        report_answer("frame_unopened", it->session, of->end_row.number, answer);
        return ANSWER_FAULT;
    }
    opens = find_number(s, of, it, answer, &number);
    if (opens == ANSWER_FAULT)
        return ANSWER_FAULT; /* the frames are read again */
    if (opens == ANSWER_FOUND)
        seen = (struct krbrelay_seen){ .opened = number, .has_opened = 1 };
    if (take_seen(s, of, it, &seen, &outcome) != ANSWER_DONE)
        return ANSWER_FAULT;
    note_unaccepted(s, of, it, &seen, outcome, answer);
    return ANSWER_DONE;
}

/* A frame under a name that is no session's of this shard here. */
static void take_unknown(struct shard *s, const struct carried *it)
{
    struct session of;
    int is_elsewhere = sessions_find(s->sessions, it->session, &of);
    unsigned shard = of.shard;
    explicit_bzero(&of, sizeof of);
    if (s->kerberos != NULL && !is_elsewhere && sessions_may_have(it->session)
        && opening_is(it->frame, it->len))
        return; /* it was counted */
    shard_count_refused(&s->counts, 0);
    if (is_elsewhere)
        log_fact(LEVEL_WARNING, "frame_misplaced", field_text("session", it->session),
                 field_number("shard", s->number), field_number("offset", it->offset),
                 field_number("belongs", shard),
                 field_text("text", "its session belongs to another shard: it is passed by"));
    else
        log_fact(LEVEL_WARNING, "session_unknown", field_text("session", it->session),
                 field_number("shard", s->number), field_number("offset", it->offset),
                 field_text("text", "it has no line, and began by no ticket in this shard: it is passed by, and its"
                                    " sender sends it again"));
}

/* ---- A frame that is accepted */

/* A text that was refused often enough. No command is asked within the store's transaction: this is its last frame. */
static enum answer put_aside(struct shard *s, const struct arrived *it)
{
    if (shard_begin_late(s) != ANSWER_DONE || effects_put_aside(s->store, s->refusals, it) != ANSWER_DONE)
        return ANSWER_FAULT;
    s->is_last |= effects_are_outside();
    s->counted.aside++;
    return ANSWER_DONE;
}

/* The effect of one text of a record. */
static enum answer take_text(struct shard *s, const struct arrived *it, int is_alone)
{
    enum answer answer;
    if (effects_are_refused(s->refusals, it))
        return put_aside(s, it);
    if (effects_are_outside())
        service_allow(s->number, EFFECT_SECONDS);
    answer = effects_take(s->store, it, is_alone, &s->refusals);
    s->counted.texts += answer == ANSWER_DONE;
    return answer;
}

/* How many texts of this frame a command has answered before, without that this is stored. */
static unsigned answered_parts(const struct shard *s, const struct arrived *it)
{
    const struct done_parts *before = &s->done_parts;
    return before->number == it->number && strcmp(before->session, it->session) == 0 ? before->parts : 0;
}

static void note_answered(struct shard *s, const struct arrived *it)
{
    s->done_parts = (struct done_parts){ .number = it->number, .parts = it->part };
    (void)copy_text(s->done_parts.session, sizeof s->done_parts.session, it->session); /* its room is a name's */
}

/* The effects of the texts of a record. */
static enum answer take_effects(struct shard *s, const struct receiving *of, const struct krbrelay_taken *taken,
                                const uint8_t *bytes, int is_alone)
{
    struct arrived it = { of->of.name, of->opened != NULL ? of->opened->client : "",
                          of->opened != NULL ? of->opened->stream : "", of->end_row.number, 0, bytes, taken->size };
    unsigned answered = answered_parts(s, &it);
    size_t at = 0;
    enum answer answer = ANSWER_DONE;
    if (taken->kind == KRBRELAY_TEXT)
        answer = take_text(s, &it, is_alone);
    while (taken->kind == KRBRELAY_BATCH && answer == ANSWER_DONE
           && krbrelay_batch_next(bytes, taken->size, &at, &it.text, &it.len) == KRBRELAY_OK) {
        if (it.part >= answered)
            answer = take_text(s, &it, is_alone);
        it.part += answer == ANSWER_DONE;
        shard_note_alive(s);
    }
    if (answer != ANSWER_DONE && effects_are_outside())
        note_answered(s, &it);
    s->counted.bytes += taken->size;
    return answer;
}

/* The frame of the demanded number, whose record is read: its effects, and then that it was taken. */
static enum answer take_accepted(struct shard *s, struct receiving *of, const struct carried *it,
                                 const struct krbrelay_taken *taken, const uint8_t *bytes, int is_alone)
{
    const struct krbrelay_seen seen = { .accepted = 1, .is_close = taken->kind == KRBRELAY_CLOSE };
    uint32_t outcome = 0;
    enum answer answer = take_effects(s, of, taken, bytes, is_alone);
    s->counts.storing += lap(s);
    if (answer == ANSWER_REFUSED || answer == ANSWER_LATER)
        list_add(&s->standing, of, &of->is_standing);
    if (answer != ANSWER_DONE)
        return answer;
    if (take_seen(s, of, it, &seen, &outcome) != ANSWER_DONE || outcome != KRBRELAY_OUTCOME_ACCEPTED)
        return ANSWER_FAULT; /* what the store has, and what was taken since, is where both are */
    of->drafted.at = it->offset;
    of->drafted.missed = MISSED_NOTHING;
    of->has_opened = 1;
    note_changed(s, of);
    goes_on(s, of);
    s->counted.accepted++;
    s->counted.closed += seen.is_close;
    return ANSWER_DONE;
}

/* The session's receiver, at what is stored, unless it is made. */
static enum answer make_receiver(const struct shard *s, struct receiving *it)
{
    const struct session *of = &it->of;
    const struct krbrelay_expect expect = { .mode = of->mode, .sender = of->from,
                                            .receiver = of->to, .require_time = 1,
                                            .skew = s->options->skew };
    enum krbrelay_answer answer;
    if (it->is_made)
        return ANSWER_DONE;
    answer = krbrelay_receiver_new(&it->receiver, of->etype, of->key, of->key_len, &expect,
                                   it->end_row.number, it->end_row.closed);
    it->is_made = answer == KRBRELAY_OK;
    if (!it->is_made)
        report_answer("receiver_unmade", of->name, it->end_row.number, answer);
    return it->is_made ? ANSWER_DONE : ANSWER_FAULT;
}

/* An opening stands before the first number: it is a repeat, for which a receipt is owed, also where it begins
 * the session. */
static enum answer take_opening(struct shard *s, struct receiving *of, const struct carried *it)
{
    const struct krbrelay_seen seen = { .has_opened = 1, .opened = of->of.first - 1 };
    uint32_t outcome = 0;
    if (take_seen(s, of, it, &seen, &outcome) != ANSWER_DONE)
        return ANSWER_FAULT;
    if (it->offset != of->opened_at) {
        s->counts.repeats++;
        return ANSWER_DONE;
    }
    s->counts.opened++;
    of->drafted.at = it->offset;
    note_changed(s, of);
    log_fact(LEVEL_INFO, "session_opened", field_text("session", of->of.name),
             field_number("shard", s->number), field_text("client", of->opened->client),
             field_text("stream", of->opened->stream), field_text("before", of->opened->before));
    return ANSWER_DONE;
}

/* A frame of a session that may not begin yet: it is asked for again. The row of the session before is compared, since
 * a receiver of the version before, of another shard in which somebody wrote its frames again, may have gone on with it. */
static enum answer take_before_turn(struct shard *s, struct receiving *of, const struct carried *it)
{
    const struct krbrelay_seen seen = { .has_opened = 1, .opened = of->of.first };
    struct receiving *before = NULL;
    uint32_t outcome = 0;
    if (shard_find(s, of->opened->before, &before) == ANSWER_FOUND && before->loading == s->loading)
        note_changed(s, before);
    s->counts.early++;
    log_fact(LEVEL_WARNING, "frame_early", field_text("session", it->session),
             field_number("shard", s->number), field_number("offset", it->offset),
             field_text("before", of->opened->before),
             field_text("text", "it has to come again after the close of the session before"));
    if (take_seen(s, of, it, &seen, &outcome) != ANSWER_DONE)
        return ANSWER_FAULT;
    note_missed(s, of, MISSED_EARLY);
    list_add(&s->standing, of, &of->is_standing);
    return ANSWER_DONE;
}

/* Whether nothing of a session by a ticket took effect, and its turn hasn't come. */
static int is_before_turn(struct shard *s, const struct receiving *of)
{
    return of->opened != NULL && of->end_row.number == of->of.first
           && shard_judge(s, of) != KRBRELAY_JUDGED_BEGINS;
}

static int is_opening_of(const struct receiving *of, const struct carried *it)
{
    return of->opened != NULL && opening_is(it->frame, it->len);
}

/* The frames from this one on that are taken in one call: those of its session that follow at once, whose records have
 * room. */
static int find_together(const struct shard *s, int first, int end, struct krbrelay_frame list[KRBRELAY_MOST_FRAMES])
{
    const struct receiving *of = s->of_frames[first];
    size_t len = 0;
    int count = 0;
    while (count < KRBRELAY_MOST_FRAMES && first + count < end && s->of_frames[first + count] == of) {
        const struct carried *it = &s->frames[first + count];
        if (count > 0 && (is_opening_of(of, it) || it->len > KRBRELAY_FRAME_LIMIT - len))
            break;
        list[count++] = (struct krbrelay_frame){ it->frame, it->len };
        len += it->len < KRBRELAY_FRAME_LIMIT ? it->len : KRBRELAY_FRAME_LIMIT;
    }
    return count;
}

/* Takes them. Where the call fails, that is the first one's answer, and no other was taken. */
static void take_call(struct shard *s, struct receiving *of, int first, int end)
{
    struct call *it = &s->call;
    struct krbrelay_frame list[KRBRELAY_MOST_FRAMES];
    enum krbrelay_answer answer;
    int i;
    it->first = first;
    it->count = find_together(s, first, end, list);
    it->used = 0;
    for (i = 0; i < it->count; i++)
        it->taken[i].number = UINT64_MAX;
    answer = krbrelay_receiver_take_many(&of->receiver, list, (size_t)it->count, &s->moment, s->bytes,
                                         KRBRELAY_FRAME_LIMIT, it->taken);
    if (answer != KRBRELAY_OK) {
        it->taken[0] = (struct krbrelay_taken){ .answer = (uint32_t)answer, .number = UINT64_MAX };
        it->count = 1;
    }
    for (i = 0; i < it->count; i++) {
        it->at[i] = it->used;
        it->used += it->taken[i].answer == KRBRELAY_OK ? it->taken[i].size : 0;
    }
}

static enum answer fault_unless(int answer)
{
    return answer == 0 ? ANSWER_DONE : ANSWER_FAULT;
}

/* Takes one frame of a session, within a transaction of so many. */
static enum answer take_frame(struct shard *s, struct receiving *of, int place, int end, int is_alone)
{
    const struct carried *it = &s->frames[place];
    const struct krbrelay_taken *taken;
    enum krbrelay_answer answer;
    enum answer done;
    if (is_opening_of(of, it))
        return fault_unless(take_opening(s, of, it));
    if (is_before_turn(s, of))
        return fault_unless(take_before_turn(s, of, it));
    if (make_receiver(s, of) != ANSWER_DONE)
        return ANSWER_FAULT;
    if (place - s->call.first >= s->call.count)
        take_call(s, of, place, end);
    taken = &s->call.taken[place - s->call.first];
    answer = (enum krbrelay_answer)taken->answer;
    done = answer == KRBRELAY_OK ? ANSWER_DONE : take_refusal(s, of, it, answer, taken->number);
    s->counts.opening += lap(s);
    if (answer != KRBRELAY_OK)
        return fault_unless(done);
    return take_accepted(s, of, it, taken, s->bytes + s->call.at[place - s->call.first], is_alone);
}

enum answer shard_take(struct shard *s, int place, int end, int is_alone)
{
    s->place = place;
    if (s->of_frames[place] != NULL)
        return take_frame(s, s->of_frames[place], place, end, is_alone);
    take_unknown(s, &s->frames[place]);
    return krbrelay_shard_pass(&s->ends, s->frames[place].offset) == KRBRELAY_OK ? ANSWER_DONE : ANSWER_FAULT;
}

void shard_leave(struct shard *s, int place)
{
    if (place - s->call.first < s->call.count)
        s->of_frames[s->call.first]->is_made = 0; /* the receiver is past what is taken */
    s->call.first = s->call.count = 0;
}

/* ---- Steps */

/* What the store has is read with the next step. Before there is a shard nothing is loaded. */
static void load_again(struct shard *s)
{
    if (krbrelay_shard_forget(&s->ends) == KRBRELAY_OK)
        s->is_loaded = 0;
}

static void close_store(struct shard *s)
{
    if (s->store != NULL)
        s->store->close(s->store);
    s->store = NULL;
    load_again(s);
}

/* It may be another store when it is there again, as a standby that is behind: what is known of sessions is forgotten. */
static void lose_store(struct shard *s)
{
    close_store(s);
    shard_forget(s);
}

/* The store has a fault: it is opened again after a pause. */
static void tell_away(struct shard *s)
{
    uint64_t now = milliseconds(), at = now;
    uint32_t turn = KRBRELAY_TURN_LOAD;
    if (krbrelay_shard_turn(&s->ends, now, &turn, &at) == KRBRELAY_OK && turn == KRBRELAY_TURN_WAIT)
        log_fact(LEVEL_WARNING, "store_away", field_number("shard", s->number), field_number("milliseconds", at - now),
                 field_text("text", "it is opened again then, and the shard goes on where it was"));
}

/* The carrier has no list, or doesn't answer. */
static void await_list(struct shard *s)
{
    if (s->unlisted.length == 0)
        krbrelay_pause_begin(&s->unlisted, WAIT, milliseconds());
    else
        krbrelay_pause_grow(&s->unlisted, WAIT_MOST, milliseconds());
    s->rests = krbrelay_pause_end(&s->unlisted);
}

/* Loads what isn't loaded. ANSWER_LATER: the carrier isn't ready; ANSWER_FAULT: the store has one. */
static enum answer load(struct shard *s)
{
    uint32_t then = KRBRELAY_THEN_WAIT;
    enum answer answer = shard_load(s);
    if (answer == ANSWER_LATER)
        await_list(s);
    else
        s->unlisted.length = 0;
    if (answer != ANSWER_FAULT)
        return answer;
    if (krbrelay_shard_failed(&s->ends, KRBRELAY_FAILURE_FAULT, s->reading.read.offset, &then) != KRBRELAY_OK)
        s->rests = milliseconds() + WAIT; /* never: a shard is there */
    lose_store(s);
    tell_away(s);
    return ANSWER_FAULT;
}

/* Fetches frames for the next transactions: how many there are. */
static int fetch(struct shard *s)
{
    uint64_t began = nanoseconds();
    size_t count = 0;
    enum answer answer = s->carrier->fetch(s->carrier, s->frames, s->options->batch, &count);
    if (answer == ANSWER_DONE)
        s->answered_at = nanoseconds();
    else
        s->rests = milliseconds() + WAIT;
    if (answer == ANSWER_CHANGED)
        load_again(s);
    if (count == 0)
        return 0;
    s->looked_at = nanoseconds();
    s->counts.fetching += s->looked_at - began;
    s->counts.frames += (unsigned long)count;
    if (s->frames[0].offset <= s->reading.read.offset) {
        load_again(s); /* they aren't what follows */
        return 0;
    }
    s->next = 0;
    s->fetched = (int)count;
    return s->fetched;
}

/* Nothing has come for a while: whether the store has what is known of it, and the list is still the one that is read, and
 * wasn't cut off, as where nodes have lost what they had. Else it is loaded again, and read from where krb_receiver says. */
static void check_list(struct shard *s)
{
    uint64_t list = 0, end = 0;
    uint32_t is_elsewhere = 0, found = KRBRELAY_FOUND_SAME;
    struct reached reached;
    s->looked_at = nanoseconds();
    if (store_reached(s->store, s->number, &reached) != ANSWER_DONE) {
        lose_store(s);
        return;
    }
    if (krbrelay_shard_found(&s->ends, reached.list, reached.offset, &found) != KRBRELAY_OK
        || found != KRBRELAY_FOUND_SAME)
        load_again(s);
    if (s->carrier->find_list(s->carrier, s->number, &list, &end) == ANSWER_DONE && list != 0
        && krbrelay_shard_listed(&s->ends, list, end, &is_elsewhere) == KRBRELAY_OK && is_elsewhere)
        load_again(s);
}

/* Each second: a store whose file was replaced is opened again, so that nothing is stored where nobody looks. */
static void check_store(struct shard *s)
{
    if (s->store == NULL || nanoseconds() - s->store_checked_at < SECOND)
        return;
    s->store_checked_at = nanoseconds();
    if (!s->store->is_there(s->store))
        lose_store(s);
}

/* Forgets all sessions once so many have ended that they take as much memory as all others, and no receipt is owed: those
 * of which frames come are loaded again. */
static void forget_ended(struct shard *s)
{
    if (s->ended < FORGOTTEN || 2 * s->ended < s->count || krbrelay_shard_next_time(&s->ends) != UINT64_MAX)
        return;
    log_fact(LEVEL_INFO, "sessions_forgotten", field_number("shard", s->number), field_number("ended", s->ended),
             field_number("others", s->count - s->ended));
    shard_forget(s);
    load_again(s);
}

/* What follows from how a transaction of so many frames ended: as shard_step. */
static int end_step(struct shard *s, struct transacted ended, int count)
{
    if (ended.failure == SHARD_DONE) {
        shard_pay(s);
        return count;
    }
    /* All is read again from where the store is: after a drawn while where another receiver was faster. */
    load_again(s);
    s->counts.fenced += ended.failure == KRBRELAY_FAILURE_FENCED;
    if (ended.failure == KRBRELAY_FAILURE_FENCED)
        s->rests = milliseconds() + 50 + (unsigned)rand() % 200;
    else if (ended.failure == KRBRELAY_FAILURE_FAULT)
        lose_store(s);
    else if (!effects_are_outside())
        close_store(s); /* a connection whose statement failed isn't used any more */
    if (ended.failure == KRBRELAY_FAILURE_FAULT)
        tell_away(s);
    return ended.then == KRBRELAY_THEN_WAIT ? -1 : count;
}

/* Takes what has come: as shard_step. */
static int take_some(struct shard *s)
{
    int count = s->next < s->fetched ? s->fetched - s->next : fetch(s);
    if (count == 0 && s->is_loaded && nanoseconds() - s->looked_at > QUIET)
        check_list(s);
    return count == 0 ? 0 : end_step(s, shard_transact(s), count);
}

/* One step, unless it rests: as shard_step. */
static int step(struct shard *s)
{
    uint32_t turn = KRBRELAY_TURN_LOAD;
    uint64_t at = 0;
    enum answer answer;
    forget_ended(s);
    check_store(s);
    shard_pay(s);
    if (krbrelay_shard_turn(&s->ends, milliseconds(), &turn, &at) != KRBRELAY_OK)
        return -1; /* never: shard_start made the shard */
    s->is_loaded = turn == KRBRELAY_TURN_READ;
    if (turn == KRBRELAY_TURN_WAIT)
        s->rests = at;
    if (turn == KRBRELAY_TURN_LOAD) {
        answer = load(s);
        if (answer != ANSWER_DONE)
            return answer == ANSWER_FAULT ? -1 : 0;
    }
    return turn == KRBRELAY_TURN_WAIT ? 0 : take_some(s);
}

static uint64_t earlier(uint64_t one, uint64_t other)
{
    return one < other ? one : other;
}

/* When there is something to do after a step in which nothing came. */
static uint64_t next_time(struct shard *s)
{
    uint64_t look = (s->looked_at + QUIET) / MILLISECOND + 1, receipt = krbrelay_shard_next_time(&s->ends);
    return earlier(earlier(look, receipt), s->carrier->due(s->carrier));
}

/* When it rests no longer, or a receipt is due. */
static uint64_t rest_ends(struct shard *s)
{
    return earlier(krbrelay_shard_next_time(&s->ends), s->rests);
}

int shard_step(struct shard *s, uint64_t *until)
{
    uint64_t began = milliseconds();
    int count = 0;
    if (began < s->rests)
        shard_pay(s);
    else
        count = step(s);
    if (count > 0 && count < FEW && s->is_loaded && s->rests < began + GATHERING)
        s->rests = began + GATHERING;
    s->hears = milliseconds() >= s->rests;
    if (!s->hears)
        *until = rest_ends(s);
    else
        *until = count != 0 || !s->is_loaded ? 0 : next_time(s);
    return count;
}

/* ---- */

enum answer shard_start(struct shard *s)
{
    s->store = store_open(s->options->store, s->number);
    if (s->store == NULL)
        return ANSWER_FAULT;
    if (s->options->kerberos.keytab != NULL
        && (s->kerberos = kerberos_open(&s->options->kerberos,
                                        s->options->kerberos.service)) == NULL)
        return ANSWER_FAULT;
    if (krbrelay_shard_new(&s->ends, (uint32_t)effects_are_outside(), (uint32_t)effects_may_put_aside()) != KRBRELAY_OK)
        return ANSWER_FAULT;
    s->carrier = carrier_open(&s->options->carrier);
    s->frames = calloc(s->options->batch, sizeof *s->frames);
    s->of_frames = calloc(s->options->batch, sizeof *s->of_frames);
    s->bytes = malloc(KRBRELAY_FRAME_LIMIT);
    return s->carrier && s->frames && s->of_frames && s->bytes ? ANSWER_DONE : ANSWER_FAULT;
}

void shard_use(struct shard *s, struct sessions *sessions)
{
    shard_forget(s);
    sessions_forget(s->sessions);
    s->sessions = sessions_share(sessions);
    load_again(s);
}

void shard_stop(struct shard *s)
{
    shard_forget(s);
    sessions_forget(s->sessions);
    close_store(s);
    krbrelay_shard_free(&s->ends);
    if (s->carrier != NULL)
        s->carrier->close(s->carrier);
    if (s->kerberos != NULL)
        kerberos_close(s->kerberos);
    if (s->bytes != NULL)
        explicit_bzero(s->bytes, KRBRELAY_FRAME_LIMIT);
    free(s->bytes);
    free(s->frames);
    free(s->of_frames);
    free(s->refusals);
}
