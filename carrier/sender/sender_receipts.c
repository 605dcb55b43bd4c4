/* What a sender hears by receipts (receipts.h): krb_engine says what each means. The frames below a receipt's n
 * took effect, and are deleted from the outbox; or the session is stopped, since these were other frames than
 * this outbox's; and what a receiver asks for leaves again.
 *
 * A receipt that can't be compared now, as where the outbox can't be read, is kept and heard later: until then nothing
 * of its session is sealed. The receipt that stops a session is stored in the outbox, and heard again whenever the
 * session is loaded. */
#include "receipts.h"
#include "clock.h"
#include "log.h"
#include "sender.h"
#include "text.h"

#include <search.h>
#include <stdlib.h>
#include <string.h>

enum { PAUSE = 20, PAUSE_MOST = 1000 }; /* milliseconds between two looks for receipts; after faults, at most */

/* Why a session is stopped whose texts stay in the outbox, and of which nothing leaves any more. */
static void write_reason(struct sending *it, uint64_t n)
{
    if (it->end.ended == KRBRELAY_ENDED_OLDER)
        write_cut(it->reason, sizeof it->reason, "this outbox is older than what has left: it goes on at"
                  " number %llu, and all below %llu took effect: the session needs a new key",
                  (unsigned long long)it->end.progress.next, (unsigned long long)n);
    else
        write_cut(it->reason, sizeof it->reason, "not all frames below number %llu that took effect are of"
                  " this outbox: it is an older copy, or another copy of it is used: the session needs a new"
                  " key, and texts from number %llu on may not have taken effect", (unsigned long long)n,
                  (unsigned long long)it->end.done);
}

/* The digest of this outbox's own frames below a receipt's number, if both ends know one. */
static enum krbrelay_own own_of(struct sender *s, const struct sending *it, const struct receipt *receipt,
                                struct history *own)
{
    *own = receipt->history;
    if (!receipt->history.is_known || receipt->n <= it->end.done || receipt->n > it->end.progress.next)
        return KRBRELAY_OWN_UNKNOWN; /* it isn't compared */
    if (outbox_history(&s->outbox, &it->of, it->stored.done, &it->stored.history, receipt->n, own) != ANSWER_DONE)
        return KRBRELAY_OWN_FAULT;
    return own->is_known ? KRBRELAY_OWN_KNOWN : KRBRELAY_OWN_UNKNOWN;
}

/* Room for the receipt that stops a session, which is had before one can. */
static int has_spare(struct sender *s)
{
    if (s->spare == NULL)
        s->spare = malloc(sizeof *s->spare);
    if (s->spare == NULL)
        log_system("out_of_memory", "receipts");
    return s->spare != NULL;
}

static void keep_stop(struct sender *s, struct sending *it, const uint8_t *bytes, size_t len)
{
    *s->spare = (struct stop){ .len = len };
    memcpy(s->spare->receipt, bytes, len);
    free(it->stop);
    it->stop = s->spare;
    s->spare = NULL;
}

/* What a receipt changes of a session's end alone: the lists of the sender stay as they are. */
static enum heard hear_receipt(struct sender *s, struct sending *it, const uint8_t *bytes, size_t len)
{
    struct krbrelay_receipt said = { .asks = 0 };
    struct receipt receipt = { .n = 0 };
    struct history own;
    enum krbrelay_own own_is;
    uint32_t heard = KRBRELAY_HEARD_NOTHING;
    enum receipt_answer read = has_spare(s) ? receipt_open(&it->of, &it->receipts, bytes, len, &receipt) : RECEIPT_FAULT;
    if (read == RECEIPT_NONE)
        return HEARD_NOTHING;
    if (read == RECEIPT_FAULT)
        return HEARD_FAULT;
    own_is = own_of(s, it, &receipt, &own);
    said.number = receipt.n;
    said.asks = receipt.asks;
    memcpy(said.history, receipt.history.bytes, sizeof said.history);
    if (!turns_has(it, krbrelay_lane_receipt(&s->lanes[it->lane].ends, it->place, &said, own.bytes, own_is,
                                               milliseconds(), &heard))
        || turns_look(s, it) != ANSWER_DONE)
        return HEARD_NOTHING;
    if (heard == KRBRELAY_HEARD_AGAIN)
        return HEARD_FAULT;
    if (heard != KRBRELAY_HEARD_ENDED)
        return heard == KRBRELAY_HEARD_DELIVERED ? HEARD_DELIVERED : HEARD_NOTHING;
    write_reason(it, receipt.n);
    keep_stop(s, it, bytes, len);
    return HEARD_STOPS;
}

/* The session after this one in its stream may take effect now: its pauses begin anew. They have grown, since what came
 * before its turn was refused, and else each session of a chain would wait for a minute. One of which this transaction has
 * sealed texts goes on as it is. */
static void wake_next(struct sender *s, const struct sending *it)
{
    size_t i;
    for (i = 0; i < s->all.count; i++) {
        struct sending *next = s->all.at[i];
        if (next->begun != NULL && next->stopped_from != 1 && !next->is_touched
            && strcmp(next->begun->opened.before, it->of.name) == 0)
            (void)sender_load(s, next); /* else it goes on as it is, too */
    }
}

void receipts_note(struct sender *s, struct sending *it, enum heard heard)
{
    if (heard == HEARD_STOPS) {
        turns_stop(s, it);
        return;
    }
    if (heard == HEARD_DELIVERED) {
        s->receipts++;
        list_add(&s->dirty, it, &it->is_dirty);
        if (it->stream != NULL && it->stream->now != it && it->end.done == it->end.progress.next)
            wake_next(s, it);
    }
    turns_note(s, it);
}

/* ---- Receipts that are kept, until their session is loaded or they can be heard */

struct kept { char name[CARRIER_NAME]; struct kept *next; size_t len; uint8_t bytes[]; };

/* Whether this sender may have the session: others hear of theirs. */
static int may_have(const struct sender *s, const char *name)
{
    struct session of;
    int has_line = sessions_find(s->sessions, name, &of);
    explicit_bzero(&of, sizeof of);
    return has_line || (s->kerberos != NULL && sessions_may_have(name));
}

static struct kept *find_kept(const struct sender *s, const char *name)
{
    void *found = tfind(name, &s->kept_receipts, by_name);
    return found != NULL ? *(struct kept **)found : NULL;
}

static void forget_kept(struct kept *kept)
{
    while (kept != NULL) {
        struct kept *next = kept->next;
        free(kept);
        kept = next;
    }
}

static void forget_node(void *node)
{
    forget_kept(node);
}

/* Keeps one more of a session: a carrier has several where the session was in several shards. A fault: there is
 * no memory. */
static enum answer keep(struct sender *s, const char *name, const uint8_t *bytes, size_t len)
{
    struct kept *it, *first = find_kept(s, name);
    if (len > RECEIPT || strlen(name) >= sizeof it->name)
        return ANSWER_DONE; /* it is none */
    it = calloc(1, sizeof *it + len);
    if (it == NULL)
        return ANSWER_FAULT;
    memcpy(it->name, name, strlen(name));
    memcpy(it->bytes, bytes, len);
    it->len = len;
    if (first != NULL) {
        it->next = first->next;
        first->next = it;
        return ANSWER_DONE;
    }
    if (tsearch(it, &s->kept_receipts, by_name) != NULL)
        return ANSWER_DONE;
    free(it);
    return ANSWER_FAULT;
}

/* The one that stopped the session before, as the outbox has it. */
static enum heard hear_stop(struct sender *s, struct sending *it)
{
    struct stop stop;
    enum heard heard;
    if (outbox_find_stop(&s->outbox, it->of.name, &stop) != ANSWER_DONE)
        return HEARD_FAULT;
    heard = stop.len > 0 ? hear_receipt(s, it, stop.receipt, stop.len) : HEARD_NOTHING;
    if (heard == HEARD_STOPS)
        it->stopped_since = stop.since;
    return heard;
}

enum heard receipts_hear_kept(struct sender *s, struct sending *it)
{
    struct kept *first = find_kept(s, it->of.name), *kept;
    enum heard most = hear_stop(s, it);
    for (kept = first; kept != NULL && most < HEARD_STOPS; kept = kept->next) {
        enum heard heard = hear_receipt(s, it, kept->bytes, kept->len);
        most = heard > most ? heard : most;
    }
    if (first == NULL || most == HEARD_FAULT)
        return most;
    (void)tdelete(first, &s->kept_receipts, by_name); /* it was found */
    forget_kept(first);
    return most;
}

void receipts_forget(struct sender *s)
{
    tdestroy(s->kept_receipts, forget_node);
    s->kept_receipts = NULL;
    free(s->spare);
    s->spare = NULL;
}

/* ---- Receipts that come */

/* A receipt of a session that is loaded. */
static void take_receipt(struct sender *s, struct sending *it, const uint8_t *bytes, size_t len)
{
    enum heard heard = HEARD_FAULT;
    if (it->stopped_from == 1)
        return;
    if (!it->is_deaf)
        heard = hear_receipt(s, it, bytes, len);
    if (heard != HEARD_FAULT) {
        receipts_note(s, it, heard);
        return;
    }
    list_add(&s->deaf, it, &it->is_deaf);
    if (keep(s, it->of.name, bytes, len) != ANSWER_DONE)
        log_system("out_of_memory", "receipts"); /* its session probes for the next one */
}

static void hear(void *given, const char *name, const uint8_t *bytes, size_t len)
{
    struct sender *s = given;
    void *found = tfind(name, &s->by_name, by_name);
    if (found != NULL)
        take_receipt(s, *(struct sending **)found, bytes, len);
    else if (!s->has_heard && may_have(s, name) && keep(s, name, bytes, len) != ANSWER_DONE)
        s->has_lost = 1;
}

/* Those that couldn't be heard when they came. */
static void hear_again(struct sender *s)
{
    size_t i, left = 0;
    for (i = 0; i < s->deaf.count; i++) {
        struct sending *it = s->deaf.at[i];
        enum heard heard = it->stopped_from == 1 ? HEARD_NOTHING : receipts_hear_kept(s, it);
        it->is_deaf = heard == HEARD_FAULT;
        if (it->is_deaf)
            s->deaf.at[left++] = it;
        else
            receipts_note(s, it, heard);
    }
    s->deaf.count = left;
}

/* The next look comes after a pause, which is twice as long after each fault. */
static void begin_pause(struct krbrelay_pause *pause, int is_fault)
{
    if (is_fault && pause->length > 0)
        krbrelay_pause_grow(pause, PAUSE_MOST, milliseconds());
    else
        krbrelay_pause_begin(pause, PAUSE, milliseconds());
}

void receipts_hear(struct sender *s)
{
    int is_fault;
    s->is_unheard = 1;
    if (s->deaf.count > 0 && krbrelay_pause_is_over(&s->hearing_again, milliseconds())) {
        hear_again(s);
        begin_pause(&s->hearing_again, s->deaf.count > 0);
    }
    if (!krbrelay_pause_is_over(&s->hearing, milliseconds()))
        return;
    is_fault = s->carrier->receipts(s->carrier, hear, s) != ANSWER_DONE; /* which is reported */
    begin_pause(&s->hearing, is_fault);
    s->has_heard |= !is_fault;
    s->is_unheard = is_fault;
}

uint64_t receipts_next_time(const struct sender *s)
{
    uint64_t unheard = s->is_unheard ? krbrelay_pause_end(&s->hearing) : UINT64_MAX;
    uint64_t deaf = s->deaf.count > 0 ? krbrelay_pause_end(&s->hearing_again) : UINT64_MAX;
    return unheard < deaf ? unheard : deaf;
}
