/* Which sessions a shard has, and what the store has of them (shard.h). */
#include "clock.h"
#include "stored_openings.h"
#include "log.h"
#include "receipts.h"
#include "shard.h"
#include "text.h"

#include <search.h>
#include <stdlib.h>
#include <string.h>

enum { TOGETHER = 256 }; /* sessions of which the store is asked at once */

/* ---- The sessions that are in memory */

static void free_receiving(void *given)
{
    struct receiving *it = given;
    krbrelay_receiver_free(&it->receiver);
    krbrelay_opener_free(&it->opener);
    if (it->opened != NULL)
        explicit_bzero(it->opened, sizeof *it->opened);
    free(it->opened);
    explicit_bzero(it, sizeof *it);
    free(it);
}

enum { LISTS = 5 };

/* Its lists, in each of which all sessions have room. */
static void lists_of(struct shard *s, struct list *lists[LISTS])
{
    struct list *const all[LISTS] = { &s->members, &s->changed, &s->standing, &s->asked, &s->opened_now };
    memcpy(lists, all, sizeof all);
}

/* Room for one more session in each list. */
static int grow(struct shard *s)
{
    struct list *lists[LISTS];
    size_t i;
    lists_of(s, lists);
    for (i = 0; i < LISTS; i++)
        if (!list_grow(lists[i], s->count))
            return 0;
    return 1;
}

struct receiving *shard_add(struct shard *s, const struct session *of)
{
    struct receiving *it = grow(s) ? calloc(1, sizeof *it) : NULL;
    if (it == NULL)
        return NULL;
    it->of = *of;
    if (tsearch(it, &s->receivings, by_name) == NULL) {
        free_receiving(it);
        return NULL;
    }
    s->count++;
    return it;
}

enum answer shard_find(struct shard *s, const char *name, struct receiving **it)
{
    void *found = tfind(name, &s->receivings, by_name);
    struct session of;
    int is_there;
    *it = found != NULL ? *(struct receiving **)found : NULL;
    if (*it != NULL)
        return ANSWER_FOUND;
    is_there = sessions_find(s->sessions, name, &of) && of.shard == s->number;
    if (is_there && receipt_key(&of) == 0)
        *it = shard_add(s, &of);
    explicit_bzero(&of, sizeof of);
    if (!is_there)
        return ANSWER_DONE;
    if (*it != NULL)
        return ANSWER_FOUND;
    log_system("out_of_memory", "sessions");
    return ANSWER_FAULT;
}

void shard_forget(struct shard *s)
{
    struct list *lists[LISTS];
    size_t i;
    lists_of(s, lists);
    tdestroy(s->receivings, free_receiving);
    s->receivings = NULL;
    for (i = 0; i < LISTS; i++)
        list_forget(lists[i]);
    s->count = s->ended = 0;
}

/* ---- What the store has of them */

/* What is known of the session isn't of this turn. */
static void note_asked(struct shard *s, struct receiving *it)
{
    if (it->loading == s->loading)
        return;
    it->loading = s->loading;
    it->stored = (struct demand){ .next = it->of.first, .shard = (int32_t)s->number,
                                  .history = { .is_known = 1 } }; /* of no frames */
    it->is_made = 0;
    s->asked.at[s->asked.count++] = it;
}

/* The same of the session of its stream before it. */
static enum answer ask_before(struct shard *s, const struct receiving *it)
{
    struct receiving *before;
    if (it->opened == NULL || shard_find_before(s, it, &before) != ANSWER_DONE)
        return it->opened == NULL ? ANSWER_DONE : ANSWER_FAULT;
    if (before == NULL || before->loading == s->loading)
        return ANSWER_DONE;
    note_asked(s, before);
    return ANSWER_DONE;
}

/* Whether the next transaction moves the shard to another list. */
static int is_other_list(const struct shard *s)
{
    return s->reading.stored.list != 0 && s->reading.stored.list != s->reading.read.list;
}

/* Makes it what that transaction makes it. */
static void reset(struct demand *stored)
{
    stored->at = 0;
    stored->missed = MISSED_NOTHING;
}

static enum answer note_stored(void *given, const char *name, const struct demand *demand)
{
    struct shard *s = given;
    struct receiving *it;
    enum answer found = shard_find(s, name, &it);
    if (found != ANSWER_FOUND)
        return found;
    it->stored = *demand;
    if (is_other_list(s) && demand->shard == (int32_t)s->number)
        reset(&it->stored);
    return ANSWER_DONE;
}

/* What this receiver makes of a session's row. A fault: there is no memory. */
static enum answer place_session(struct shard *s, struct receiving *it)
{
    struct krbrelay_row row = { .number = it->stored.next, .closed = it->stored.closed };
    enum krbrelay_answer answer;
    memcpy(row.history, it->stored.history.bytes, sizeof row.history);
    answer = krbrelay_shard_add(&s->ends, &row, &it->place);
    if (answer != KRBRELAY_OK) {
        report_answer("session_unloaded", it->of.name, row.number, answer);
        return ANSWER_FAULT;
    }
    s->members.at[s->members.count++] = it;
    it->end_row = row;
    it->drafted = it->stored;
    if (!it->stored.is_stored || it->stored.shard != (int32_t)s->number) {
        it->drafted.at = 0;
        it->drafted.shard = (int32_t)s->number;
        it->drafted.missed = MISSED_NOTHING;
    }
    return ANSWER_DONE;
}

/* Asks the store of the sessions that are noted for it. */
static enum answer ask_store(struct shard *s)
{
    const char *names[TOGETHER];
    size_t i, count = 0;
    enum answer answer = ANSWER_DONE;
    for (i = 0; i < s->asked.count && answer == ANSWER_DONE; i++) {
        names[count++] = ((struct receiving *)s->asked.at[i])->of.name;
        if (count < TOGETHER && i + 1 < s->asked.count)
            continue;
        answer = store_sessions(s->store, names, count, note_stored, s);
        count = 0;
    }
    return answer;
}

/* Asks the store of a session, and of the one before it, for which it may wait: that one is looked for with each
 * frame, since its row may come, or its key be readable, after this session was loaded. */
static enum answer ask_for(struct shard *s, struct receiving *it)
{
    int is_new = it->loading != s->loading;
    note_asked(s, it);
    return is_new || it->end_row.number == it->of.first ? ask_before(s, it) : ANSWER_DONE;
}

enum answer shard_load_frames(struct shard *s, int first, int end)
{
    int i;
    size_t each;
    s->asked.count = 0;
    s->unknown[0] = 0;
    for (i = first; i < end; i++) {
        enum answer found;
        if (i > first && s->of_frames[i - 1] != NULL && strcmp(s->frames[i].session, s->frames[i - 1].session) == 0) {
            s->of_frames[i] = s->of_frames[i - 1]; /* as mostly: a session's frames come together */
            continue;
        }
        found = shard_find(s, s->frames[i].session, &s->of_frames[i]);
        if (found == ANSWER_DONE && s->kerberos != NULL)
            found = shard_find_opened(s, &s->frames[i], &s->of_frames[i]);
        if (found == ANSWER_FAULT)
            return ANSWER_FAULT;
        if (found == ANSWER_FOUND && ask_for(s, s->of_frames[i]) != ANSWER_DONE)
            return ANSWER_FAULT;
    }
    if (ask_store(s) != ANSWER_DONE)
        return ANSWER_FAULT;
    for (each = 0; each < s->asked.count; each++)
        if (place_session(s, s->asked.at[each]) != ANSWER_DONE)
            return ANSWER_FAULT;
    return ANSWER_DONE;
}

/* ---- Loading */

/* All that is known of sessions is of an earlier turn. */
static void begin_loading(struct shard *s)
{
    size_t i;
    s->loading++;
    for (i = 0; i < s->changed.count; i++)
        ((struct receiving *)s->changed.at[i])->is_changed = 0;
    s->changed.count = s->members.count = 0;
}

static enum answer count_closed(void *given, const char *name, const struct demand *demand)
{
    (void)name;
    *(size_t *)given += demand->closed != 0;
    return ANSWER_DONE;
}

/* How many sessions of the file are open: all of them are looked at. */
static enum answer count_open(struct shard *s)
{
    char names[TOGETHER][CARRIER_NAME];
    const char *list[TOGETHER];
    size_t i, count = 0, all = 0, closed = 0, last = sessions_count(s->sessions);
    struct session it;
    enum answer answer = ANSWER_DONE;
    for (i = 0; i < last && answer == ANSWER_DONE; i++) {
        sessions_at(s->sessions, i, &it);
        if (it.shard == s->number) {
            list[count] = strcpy(names[count], it.name);
            count++;
            all++;
        }
        if (count == TOGETHER || i + 1 == last) {
            answer = store_sessions(s->store, list, count, count_closed, &closed);
            count = 0;
        }
    }
    explicit_bzero(&it, sizeof it);
    s->open = all - closed;
    return answer;
}

enum answer shard_look(struct shard *s)
{
    return krbrelay_shard_reading(&s->ends, &s->reading) == KRBRELAY_OK ? ANSWER_DONE : ANSWER_FAULT;
}

/* The store has gone back, if it has less of the same list than is known. */
static void tell_behind(struct shard *s, const struct reached *reached)
{
    const struct krbrelay_spot *known = &s->reading.stored;
    uint32_t found = KRBRELAY_FOUND_SAME;
    if (krbrelay_shard_found(&s->ends, reached->list, reached->offset, &found) == KRBRELAY_OK
        && found == KRBRELAY_FOUND_BEHIND && reached->list == known->list)
        log_fact(LEVEL_ERROR, "store_behind", field_number("shard", s->number), field_number("known", known->offset),
                 field_number("offset", reached->offset),
                 field_text("text", "the store has gone back: the shard is read again from there, and what took effect since is"
                                    " lost, unless its frames come again"));
}

/* Where the shard is read on: not from where it was, if it is another list, or was cut off. */
static enum answer place_reading(struct shard *s, const struct reached *reached, uint64_t list, uint64_t end)
{
    const struct krbrelay_reading *it = &s->reading;
    uint32_t is_elsewhere = 0;
    tell_behind(s, reached);
    if (krbrelay_shard_loaded(&s->ends, reached->list, reached->offset) != KRBRELAY_OK
        || krbrelay_shard_listed(&s->ends, list, end, &is_elsewhere) != KRBRELAY_OK || shard_look(s) != ANSWER_DONE)
        return ANSWER_FAULT;
    if (is_elsewhere && it->stored.list != 0)
        log_fact(LEVEL_WARNING, it->stored.list != list ? "shard_made_anew" : "shard_lost_frames",
                 field_number("shard", s->number), field_number("end", end),
                 field_number("offset", it->stored.offset), field_number("from", it->read.offset),
                 field_text("text", "it is read on from there: what didn't take effect comes again"));
    return ANSWER_DONE;
}

enum answer shard_load(struct shard *s)
{
    uint64_t list = 0, end = 0;
    struct reached reached;
    if (s->store == NULL && (s->store = store_open(s->options->store, s->number)) == NULL)
        return ANSWER_FAULT;
    begin_loading(s);
    if (store_reached(s->store, s->number, &reached) != ANSWER_DONE
        || (s->options->until_closed && count_open(s) != ANSWER_DONE))
        return ANSWER_FAULT;
    if (s->carrier->find_list(s->carrier, s->number, &list, &end) != ANSWER_DONE || list == 0)
        return ANSWER_LATER;
    if (s->kerberos != NULL && !s->has_wrapped) /* without the keytab others go on */
        s->has_wrapped = openings_wrap_anew(s->store, s->kerberos, s->number) == ANSWER_DONE;
    if (place_reading(s, &reached, list, end) != ANSWER_DONE)
        return ANSWER_FAULT;
    s->carrier->seek(s->carrier, s->number, s->reading.read.offset);
    s->next = s->fetched = 0;
    s->is_loaded = 1;
    return ANSWER_DONE;
}
