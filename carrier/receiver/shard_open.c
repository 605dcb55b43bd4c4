/* The sessions of a shard that begin by tickets: from the store, or by their openings. */
#include "clock.h"
#include "stored_openings.h"
#include "log.h"
#include "shard.h"

#include <stdlib.h>
#include <string.h>

/* Adds a session that began by a ticket. NULL if there is no memory. */
static struct receiving *add_opened(struct shard *s, const struct opened *it)
{
    struct opened *copy = malloc(sizeof *copy);
    struct receiving *added = NULL;
    struct session of;
    if (copy != NULL) {
        *copy = *it;
        if (opening_session(s->kerberos, it, s->number, &of) == 0)
            added = shard_add(s, &of);
        explicit_bzero(&of, sizeof of);
    }
    if (added != NULL) {
        added->opened = copy;
        return added;
    }
    if (copy != NULL)
        explicit_bzero(copy, sizeof *copy);
    free(copy);
    log_system("out_of_memory", "sessions");
    return NULL;
}

/* ---- From the store */

/* A row that is looked for by its name, perhaps as that of the session before one that is known. */
struct sought { struct shard *shard; const struct opened *after; struct receiving *found; };

static int is_same_stream(const struct opened *one, const struct opened *other)
{
    return strcmp(one->client, other->client) == 0 && strcmp(one->stream, other->stream) == 0;
}

/* A session is of the shard that its row says. A stream is in one shard, so the session before one of this shard is of
 * it too, also if its row says another one: its opening, of the version before, was copied there. */
static enum answer note_found(void *given, const struct opened *it)
{
    struct sought *sought = given;
    int is_here = it->shard == sought->shard->number;
    if (!is_here && (sought->after == NULL || !is_same_stream(it, sought->after)))
        return ANSWER_DONE;
    sought->found = add_opened(sought->shard, it);
    return sought->found != NULL ? ANSWER_DONE : ANSWER_FAULT;
}

/* The session of this name, or the one of this name before another one; DONE and NULL if the store has none in
 * this shard. */
static enum answer find_stored(struct shard *s, const char *name, const struct opened *after, struct receiving **found)
{
    struct sought sought = { s, after, NULL };
    if (openings_find(s->store, s->kerberos, name, note_found, &sought) != ANSWER_DONE)
        return ANSWER_FAULT;
    *found = sought.found;
    return *found != NULL ? ANSWER_FOUND : ANSWER_DONE;
}

/* ---- The session before it */

enum answer shard_find_before(struct shard *s, const struct receiving *of, struct receiving **found)
{
    const char *name = of->opened->before;
    enum answer answer;
    *found = NULL;
    if (*name == 0)
        return ANSWER_DONE;
    answer = shard_find(s, name, found);
    if (answer == ANSWER_DONE)
        answer = find_stored(s, name, of->opened, found);
    return answer == ANSWER_FAULT ? answer : ANSWER_DONE;
}

/* The stream's session before this one as krb_engine's head of the stream: none, unless the store has it. */
static struct krbrelay_head head_before(struct shard *s, const struct receiving *of, int *is_known)
{
    struct krbrelay_head head = { 0 };
    struct receiving *before;
    if (shard_find(s, of->opened->before, &before) != ANSWER_FOUND || before->loading != s->loading
        || before->opened == NULL || !is_same_stream(before->opened, of->opened))
        return head;
    *is_known = before->stored.history.is_known;
    head.turn = 1;
    head.number = before->end_row.number;
    head.closed = before->end_row.closed;
    memcpy(head.history, before->end_row.history, sizeof head.history);
    return head;
}

/* What an opening says of the session before it. Its number follows from the history. Where an older version
 * doesn't tell that either, or the store doesn't know it, it isn't compared. */
static struct krbrelay_opening told_of(const struct opened *it, const struct krbrelay_head *head, int is_known)
{
    struct krbrelay_opening opening = { .turn = it->before[0] != 0 ? 2 : 1, .number = head->number };
    memcpy(opening.history, it->closed.is_known && is_known ? it->closed.bytes : head->history,
           sizeof opening.history);
    return opening;
}

uint32_t shard_judge(struct shard *s, const struct receiving *of)
{
    struct krbrelay_head head = { 0 };
    struct krbrelay_opening opening;
    uint32_t judged = KRBRELAY_JUDGED_LATER;
    int is_known = 0;
    if (of->opened->before[0] != 0)
        head = head_before(s, of, &is_known);
    opening = told_of(of->opened, &head, is_known);
    if (krbrelay_judge(&head, &opening, &judged) != KRBRELAY_OK)
        return KRBRELAY_JUDGED_LATER;
    if (judged == KRBRELAY_JUDGED_FORKED)
        log_fact(LEVEL_ERROR, "session_forked", field_text("session", of->of.name),
                 field_number("shard", s->number), field_text("before", of->opened->before),
                 field_text("text", "the session before took other frames than this one's sender says: is"
                                    " its outbox an older copy, or is another copy of it used?"));
    return judged;
}

/* ---- By an opening */

/* An opening isn't taken now: its sender makes another one, as long as it hears of no receipt. */
static enum answer refuse(struct shard *s, const struct carried *it, enum opening_answer answer,
                          const struct opened *opened)
{
    shard_count_unopened(&s->counts, answer);
    log_fact(LEVEL_WARNING, "opening_refused", field_text("session", it->session),
             field_number("shard", s->number), field_number("offset", it->offset),
             field_text("answer", opening_name(answer)), field_text("client", opened->client),
             field_text("stream", opened->stream),
             field_text("text", "its sender sends another one, which counts once it can be taken"));
    return ANSWER_DONE;
}

/* Whether a session may begin, beside those that this transaction begins, and by what the store has. */
static enum opening_answer judge_place(struct shard *s, const struct opened *it)
{
    size_t i;
    for (i = 0; i < s->opened_now.count; i++) {
        const struct opened *other = ((struct receiving *)s->opened_now.at[i])->opened;
        if (is_same_stream(other, it) && strcmp(other->before, it->before) == 0)
            return OPENING_FORKED;
    }
    return openings_judge(s->store, it);
}

static enum answer open_session(struct shard *s, const struct carried *it, struct receiving **found)
{
    struct opened opened;
    enum opening_answer answer = opening_take(s->kerberos, s->number, it->session, it->frame, it->len, &opened);
    enum answer done = ANSWER_FAULT;
    if (answer == OPENING_OK)
        answer = judge_place(s, &opened);
    if (answer > OPENING_OK)
        done = refuse(s, it, answer, &opened);
    else if (answer == OPENING_OK) {
        *found = add_opened(s, &opened);
        done = *found != NULL ? ANSWER_FOUND : ANSWER_FAULT;
    }
    explicit_bzero(&opened, sizeof opened);
    if (done != ANSWER_FOUND)
        return done;
    (*found)->opened_at = it->offset;
    s->opened_now.at[s->opened_now.count++] = *found;
    return ANSWER_FOUND;
}

enum answer shard_find_opened(struct shard *s, const struct carried *it, struct receiving **found)
{
    int is_opening = opening_is(it->frame, it->len);
    enum answer answer;
    if (!sessions_may_have(it->session) || (!is_opening && strcmp(s->unknown, it->session) == 0))
        return ANSWER_DONE;
    answer = find_stored(s, it->session, NULL, found);
    if (answer != ANSWER_DONE)
        return answer;
    memcpy(s->unknown, it->session, sizeof s->unknown);
    return is_opening ? open_session(s, it, found) : ANSWER_DONE;
}
