/* The sessions of a sender that are loaded. */
#include "clock.h"
#include "log.h"
#include "receipts.h"
#include "sender.h"
#include "text.h"

#include <search.h>
#include <stdlib.h>
#include <string.h>

/* Room for one more session in each list. */
static int grow(struct sender *s, struct lane *lane)
{
    struct list *const lists[] = { &s->all, &s->touched, &s->dirty, &s->sealable, &s->untold, &s->deaf };
    size_t i;
    for (i = 0; i < sizeof lists / sizeof *lists; i++)
        if (!list_grow(lists[i], s->all.count))
            return 0;
    return list_grow(&lane->members, lane->members.count);
}

/* The place of the lane of a shard, which is made with its first session. */
static size_t lane_of(struct sender *s, unsigned shard)
{
    size_t *lane = &s->lane_of[shard];
    if (*lane == 0) {
        s->lanes[s->lane_count++].shard = shard;
        *lane = s->lane_count;
    }
    return *lane - 1;
}

static void free_sending(struct sending *it)
{
    seal_free(it);
    if (it->begun != NULL)
        explicit_bzero(it->begun, sizeof *it->begun);
    free(it->begun);
    free(it->wrapped);
    free(it->stop);
    explicit_bzero(it, sizeof *it);
    free(it);
}

struct sending *sender_add(struct sender *s, const struct session *of, struct begun *begun)
{
    size_t place = lane_of(s, of->shard);
    struct lane *lane = &s->lanes[place];
    struct sending *it = grow(s, lane) ? calloc(1, sizeof *it) : NULL;
    enum heard heard = HEARD_FAULT;
    if (it == NULL)
        return NULL;
    it->of = *of;
    it->lane = place;
    it->place = (uint32_t)lane->members.count;
    it->tag = s->first_tag + (uint32_t)s->all.count;
    it->is_stored = 1; /* but of a stream's session that begins now */
    it->begun = begun;
    if (tsearch(it, &s->by_name, by_name) != NULL && sender_load(s, it) == ANSWER_DONE)
        heard = receipts_hear_kept(s, it);
    if (heard != HEARD_FAULT) {
        s->all.at[s->all.count++] = it;
        lane->members.at[lane->members.count++] = it;
        lane->has_spare = 0;
        receipts_note(s, it, heard);
        return it;
    }
    if (lane->has_spare)
        (void)turns_has(it, krbrelay_lane_stop(&lane->ends, it->place)); /* until it is loaded again */
    it->begun = NULL; /* it is the caller's */
    (void)tdelete(it, &s->by_name, by_name); /* NULL if it isn't there */
    free_sending(it);
    return NULL;
}

/* Its shard's lane has the end that the outbox has of it. */
static enum krbrelay_answer load_end(struct sender *s, const struct sending *it)
{
    struct lane *lane = &s->lanes[it->lane];
    const struct outbox_progress *kept = &it->stored;
    int is_elsewhere = kept->shard >= 0 && kept->shard != (int32_t)it->of.shard;
    struct krbrelay_stored row = { .next = kept->next, .carried = kept->carried, .at = kept->at, .done = kept->done,
                                   .list = is_elsewhere ? 0 : kept->list };
    enum krbrelay_answer answer = turns_set_time(s, lane);
    uint32_t place = 0;
    if (answer != KRBRELAY_OK)
        return answer;
    if (it->place < lane->members.count || lane->has_spare)
        return krbrelay_lane_reload(&lane->ends, it->place, &row, it->begun != NULL);
    answer = krbrelay_lane_add(&lane->ends, &row, it->begun != NULL, &place);
    lane->has_spare = answer == KRBRELAY_OK; /* until it is a member */
    return answer;
}

enum answer sender_load(struct sender *s, struct sending *it)
{
    struct outbox_progress row;
    const struct outbox_progress *kept = &it->stored;
    enum krbrelay_answer answer;
    if (outbox_load(&s->outbox, &it->of, &row) != ANSWER_DONE)
        return ANSWER_FAULT; /* what is known of it stays */
    it->stored = row;
    answer = load_end(s, it);
    if (answer == KRBRELAY_MEMORY)
        log_system("out_of_memory", "sender");
    if (answer == KRBRELAY_ARGUMENT)
        log_fact(LEVEL_ERROR, "progress_unknown", field_text("session", it->of.name),
                 field_number("next", kept->next), field_number("carried", kept->carried),
                 field_number("done", kept->done),
                 field_text("text", "the outbox has these numbers, which are no progress"));
    if (answer != KRBRELAY_OK || turns_look(s, it) != ANSWER_DONE)
        return ANSWER_FAULT;
    it->stands = kept->stands;
    return sender_read_history(s, it);
}

enum answer sender_read_history(struct sender *s, struct sending *it)
{
    struct history history = { .is_known = 0 };
    it->is_unread = outbox_history(&s->outbox, &it->of, it->stored.done, &it->stored.history, it->end.progress.next,
                                   &history) != ANSWER_DONE;
    seal_reset(it, &history);
    return it->is_unread ? ANSWER_FAULT : ANSWER_DONE;
}

enum answer sender_find(struct sender *s, const char *name, struct sending **it)
{
    void *found = tfind(name, &s->by_name, by_name);
    struct session of;
    int is_there;
    *it = found != NULL ? *(struct sending **)found : NULL;
    if (*it != NULL && (*it)->begun == NULL)
        return ANSWER_FOUND;
    is_there = sessions_find(s->sessions, name, &of);
    if (is_there && receipt_key(&of) == 0)
        *it = sender_add(s, &of, NULL);
    explicit_bzero(&of, sizeof of);
    if (is_there)
        return *it != NULL ? ANSWER_FOUND : ANSWER_FAULT;
    return s->kerberos != NULL ? sender_find_stream(s, name, it) : ANSWER_DONE;
}

/* A session has frames, and can't be loaded now. */
static enum answer tell_unloaded(struct sender *s, const char *name)
{
    if (s->kerberos != NULL)
        sender_note_unreadable(s);
    return sender_stop(s, name, s->kerberos == NULL
                       ? "it has frames that aren't carried, and no line among the sessions"
                       : "it has frames that aren't carried, and no key: is the keytab there, and its"
                         " line, if it had one?") == ANSWER_FAULT ? ANSWER_FAULT : ANSWER_DONE;
}

static enum answer load_named(void *given, const char *name)
{
    struct sender *s = given;
    struct sending *it;
    struct session of;
    int has_line = sessions_find(s->sessions, name, &of);
    enum answer found;
    explicit_bzero(&of, sizeof of);
    found = has_line || s->kerberos == NULL ? sender_find(s, name, &it)
                                            : sender_find_begun(s, name, &it);
    if (found == ANSWER_DONE)
        return tell_unloaded(s, name);
    if (found == ANSWER_FOUND && s->key_tries > 0 && it->stopped_from == 0 && sender_end_stop(s, name) == ANSWER_FAULT)
        return ANSWER_FAULT; /* that its key can't be read was told before, perhaps of this one */
    return found == ANSWER_FAULT ? ANSWER_FAULT : ANSWER_DONE;
}

/* One that a receipt stopped, and that has no frame: `stopped` names it again, as long as it has its line. */
static enum answer load_stopped(void *given, const char *name)
{
    struct sender *s = given;
    struct sending *it;
    struct session of;
    int has_line = sessions_find(s->sessions, name, &of);
    explicit_bzero(&of, sizeof of);
    return has_line && sender_find(s, name, &it) == ANSWER_FAULT ? ANSWER_FAULT : ANSWER_DONE;
}

enum answer sender_begin(struct sender *s)
{
    return outbox_sessions(&s->outbox, load_named, s) == ANSWER_DONE
           && outbox_stops(&s->outbox, load_stopped, s) == ANSWER_DONE ? ANSWER_DONE : ANSWER_FAULT;
}

static void keep(void *given)
{
    (void)given;
}

void sender_forget(struct sender *s)
{
    size_t i;
    sender_forget_streams(s);
    tdestroy(s->by_name, keep);
    s->by_name = NULL;
    for (i = 0; i < s->all.count; i++)
        free_sending(s->all.at[i]);
    for (i = 0; i < s->lane_count; i++) {
        krbrelay_lane_free(&s->lanes[i].ends);
        list_forget(&s->lanes[i].members);
        s->lanes[i] = (struct lane){ .shard = s->lanes[i].shard };
    }
    s->first_tag += (uint32_t)s->all.count;
    list_forget(&s->all);
    list_forget(&s->touched);
    list_forget(&s->dirty);
    list_forget(&s->sealable);
    list_forget(&s->untold);
    list_forget(&s->deaf);
    s->unopened = 0;
    s->uncarried = s->awaited = s->unreceipted = 0;
    s->has_begun = 0;
    s->seen = 0;
    s->unknown[0] = 0;
}
