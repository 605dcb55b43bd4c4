/* The carrier, in memory, as JetStream is: shards with all that was published, and of each session's receipts the last. */
#include "carrier.h"
#include "clock.h"
#include "world.h"

#include <stdlib.h>
#include <string.h>

enum { CONFIRMED_WITHIN = 50, HAPPENS_ALL_THE_SAME = 4 };

/* A frame in a shard, or a receipt, whose `turn` is above that of those before. */
struct item { struct carried it; uint8_t *bytes; unsigned shard; uint64_t turn; };
static struct items { struct item *at; size_t count, room; uint64_t list; } shards[SHARDS], receipts;
static uint64_t turns;

/* A confirmation that is under way. */
struct confirmation { uint64_t due; struct confirmed it; struct confirmation *next; };

/* One end's connection. */
struct connection {
    struct carrier base;
    struct confirmation *confirmations;
    unsigned shard;
    uint64_t after, list; /* it reads that list of the shard from there on */
    uint64_t heard;              /* receipts up to this turn */
};

/* ---- What the world has of it */

/* What stands in a list is nobody's memory that may be killed. */
static struct item *put(struct items *to, const char *session, const uint8_t *bytes, size_t len)
{
    int before = running;
    struct item *it;
    running = WORLD;
    if (to->count == to->room) {
        to->room = 2 * to->room + 64;
        to->at = realloc(to->at, to->room * sizeof *to->at);
    }
    it = &to->at[to->count++];
    *it = (struct item){ .bytes = malloc(len + 1) };
    memcpy(it->bytes, bytes, len);
    it->it = (struct carried){ .offset = to->count, .frame = it->bytes, .len = len };
    memcpy(it->it.session, session, strlen(session) + 1);
    running = before;
    return it;
}

/* A frame comes to those that serve the shard. */
static void put_frame(unsigned shard, const char *session, const uint8_t *frame, size_t len)
{
    unsigned i;
    (void)put(&shards[shard], session, frame, len); /* the item: nothing more is said of it */
    for (i = shard; i < RECEIVERS; i += SHARDS)
        ends_wake(RECEIVER + (int)i, moment());
}

static void cut(struct items *it, size_t count)
{
    while (it->count > 0 && count-- > 0)
        free(it->at[--it->count].bytes);
}

void frames_begin(void)
{
    unsigned i;
    for (i = 0; i < SHARDS; i++)
        shards[i].list = 1 + drawn(1000000);
}

void frames_delete(unsigned shard)
{
    cut(&shards[shard], shards[shard].count);
    shards[shard].list++;
    happened(KIND_DELETED, 1);
}

void frames_cut(unsigned shard, unsigned count)
{
    cut(&shards[shard], count);
    happened(KIND_CUT, 1);
}

void frames_purge(void)
{
    cut(&receipts, receipts.count);
    happened(KIND_PURGED, 1);
}

unsigned frames_receipts_kept(unsigned name)
{
    unsigned number = 0;
    size_t i;
    for (i = 0; i < receipts.count; i++)
        number += name_of(receipts.at[i].it.session) == name;
    return number;
}

/* ---- Faults */

void port_is_killed(void)
{
    if (running == WORLD || faults.killed == 0 || drawn(100000) >= faults.killed)
        return;
    happened(KIND_KILLED, 1);
    party_killed();
}

void port_is_slow(void)
{
    int is_slow = is_drawn(faults.slow);
    happened(KIND_SLOW, is_slow != 0);
    spend(is_slow ? drawn(3000) * MILLISECOND : 0);
}

/* A fault of this kind at this moment: what doesn't arrive now isn't the sender's fault. */
static int is_struck(unsigned chance_of_it, enum kind kind)
{
    if (!is_drawn(chance_of_it))
        return 0;
    happened(kind, 1);
    faults.carrier_at = now;
    return 1;
}

/* The next one is lost, if one is to be. */
static int is_lost_once(int *which)
{
    int is_lost = *which;
    *which = 0;
    happened(KIND_CALM, is_lost != 0);
    return is_lost;
}

static int fails(void)
{
    port_is_killed();
    port_is_slow();
    return is_struck(faults.carrier, KIND_CARRIER);
}

/* ---- The port, of who publishes */

static enum answer find_list(struct carrier *base, unsigned shard, uint64_t *list, uint64_t *end)
{
    struct connection *c = (struct connection *)base;
    if (fails())
        return ANSWER_FAULT;
    c->list = *list = shards[shard].list;
    *end = shards[shard].count;
    return ANSWER_DONE;
}

static enum answer make(struct carrier *base, unsigned shard, uint64_t *list)
{
    *list = shards[shard].list;
    return ANSWER_DONE;
}

/* Confirmations come in the order of what they are of, as those of a stream do. */
static enum answer confirm(struct connection *c, unsigned shard, uint32_t tag, uint64_t number)
{
    struct confirmation *it = calloc(1, sizeof *it), **end = &c->confirmations;
    if (it == NULL)
        return ANSWER_FAULT;
    it->due = moment() + drawn(CONFIRMED_WITHIN) * MILLISECOND;
    it->it = (struct confirmed){ tag, number, shards[shard].count };
    for (; *end != NULL; end = &(*end)->next)
        it->due = (*end)->due > it->due ? (*end)->due : it->due;
    *end = it;
    return ANSWER_DONE;
}

static void count_published(unsigned shard, const char *session, uint64_t number)
{
    unsigned name = name_of(session);
    seen.published[name]++;
    seen.second.under_way[shard]++;
    if (session[0] == 's' && number < MOST_TEXTS && seen.left[name][number] < UINT8_MAX)
        seen.left[name][number]++;
    happened(KIND_SILENT, faults.is_silent != 0);
}

static enum answer publish(struct carrier *base, unsigned shard, const char *session, uint32_t tag, uint64_t number,
                           const uint8_t *frame, size_t len)
{
    count_published(shard, session, number);
    if (faults.is_silent || is_lost_once(&faults.loses_frame))
        return ANSWER_DONE;
    if (has(KIND_COPIED) && !faults.is_over && drawn(3) == 0) { /* somebody copies it */
        happened(KIND_COPIED, 1);
        put_frame((shard + 1) % SHARDS, session, frame, len);
    }
    if (fails()) {
        if (drawn(HAPPENS_ALL_THE_SAME) == 0)
            put_frame(shard, session, frame, len);
        return drawn(2) == 0 ? ANSWER_DONE : ANSWER_FAULT;
    }
    if (is_struck(faults.lost, KIND_LOST))
        return ANSWER_DONE;
    put_frame(shard, session, frame, len);
    if (is_struck(faults.twice, KIND_LOST))
        put_frame(shard, session, frame, len);
    if (is_struck(faults.lost, KIND_LOST) || is_lost_once(&faults.loses_confirmation))
        return ANSWER_DONE;
    seen.second.under_way[shard] -= seen.second.under_way[shard] > 0;
    return confirm((struct connection *)base, shard, tag, number);
}

static void drop_confirmation(struct confirmation **at)
{
    struct confirmation *it = *at;
    *at = it->next;
    free(it);
}

static enum answer confirmed(struct carrier *base, struct confirmed *list, size_t room, size_t *count)
{
    struct confirmation **at = &((struct connection *)base)->confirmations;
    *count = 0;
    port_is_killed();
    while (*at != NULL && *count < room && (*at)->due <= moment()) {
        list[(*count)++] = (*at)->it;
        drop_confirmation(at);
    }
    if (*at != NULL)
        ends_wake(running, (*at)->due);
    return ANSWER_DONE;
}

/* ---- Of who reads */

static void seek(struct carrier *base, unsigned shard, uint64_t offset)
{
    struct connection *c = (struct connection *)base;
    c->shard = shard;
    c->after = offset;
}

static enum answer fetch(struct carrier *base, struct carried *list, size_t room, size_t *count)
{
    struct connection *c = (struct connection *)base;
    const struct items *from = &shards[c->shard];
    *count = 0;
    if (fails())
        return ANSWER_FAULT;
    if (c->list != from->list || c->after > from->count)
        return ANSWER_CHANGED;
    while (*count < room && c->after < from->count)
        list[(*count)++] = from->at[c->after++].it;
    return ANSWER_DONE;
}

static enum answer behind(struct carrier *base, uint64_t *frames)
{
    const struct connection *c = (const struct connection *)base;
    size_t count = shards[c->shard].count;
    *frames = count > c->after ? count - c->after : 0;
    return ANSWER_DONE;
}

/* ---- Receipts: of a session of a shard the last one is kept */

static void drop_receipt(unsigned shard, const char *session)
{
    size_t i = 0;
    while (i < receipts.count && (receipts.at[i].shard != shard || strcmp(receipts.at[i].it.session, session) != 0))
        i++;
    if (i == receipts.count)
        return;
    free(receipts.at[i].bytes);
    memmove(&receipts.at[i], &receipts.at[i + 1], (--receipts.count - i) * sizeof *receipts.at);
}

static void keep_receipt(unsigned shard, const struct carried *receipt)
{
    struct item *kept;
    drop_receipt(shard, receipt->session);
    kept = put(&receipts, receipt->session, receipt->frame, receipt->len);
    kept->shard = shard;
    kept->turn = ++turns;
}

static enum answer acknowledge(struct carrier *base, unsigned shard, const struct carried *list, size_t count)
{
    size_t i;
    int party;
    if (fails())
        return ANSWER_FAULT;
    for (i = 0; i < count; i++) {
        seen.second.receipts[name_of(list[i].session)]++;
        happened(KIND_CALM, faults.loses_receipts != 0);
        if (!faults.loses_receipts && !is_struck(faults.lost, KIND_LOST))
            keep_receipt(shard, &list[i]);
    }
    for (party = SENDER; party < SENDER + SENDERS; party++)
        ends_wake(party, moment());
    return ANSWER_DONE;
}

static enum answer give_receipts(struct carrier *base, carrier_receipt *take, void *given)
{
    struct connection *c = (struct connection *)base;
    size_t i;
    seen.second.looks[running]++;
    if (fails())
        return ANSWER_FAULT;
    seen.second.answered[running]++;
    for (i = 0; i < receipts.count; i++) {
        const struct item *it = &receipts.at[i];
        if (it->turn <= c->heard)
            continue;
        c->heard = it->turn;
        take(given, it->it.session, it->bytes, it->it.len);
    }
    return ANSWER_DONE;
}

static void forget_receipt(struct carrier *base, unsigned shard, const char *session)
{
    if (!fails())
        drop_receipt(shard, session);
}

/* ---- */

static int never(struct carrier *base)
{
    return 0;
}

static uint64_t not_due(struct carrier *base)
{
    return UINT64_MAX;
}

static void close_carrier(struct carrier *base)
{
    struct connection *c = (struct connection *)base;
    while (c->confirmations != NULL)
        drop_confirmation(&c->confirmations);
    free(c);
}

struct carrier *carrier_open(const struct carrier_options *options)
{
    struct connection *c = calloc(1, sizeof *c);
    if (c == NULL)
        return NULL;
    c->base = (struct carrier){ find_list, make, publish, confirmed, seek, fetch, behind, acknowledge,
                                give_receipts, forget_receipt, never, never, close_carrier,
                                not_due, NULL, -1 };
    return &c->base;
}
