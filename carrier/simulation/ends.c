/* The shipped programs: a sender's round and a shard's turn are steps, and what they would wait is when the next one is. */
#include "world.h"
#include "clock.h"
#include "effects.h"
#include "sender.h"
#include "shard_threads.h"

#include <stdio.h>
#include <stdlib.h>
#include <string.h>

enum {
    TRIES = 3, BATCH = 64, LONG_BATCH = 200, WAITING = 100, RESTARTED = 2000,
    SOON = 3, LATE = 1000, RARELY = 50, /* milliseconds after which a wait ends, and how often it is late */
    LIFE = 5, LONG_LIFE = 86400, SKEW = 600, LONG_SKEW = 86400 /* seconds */
};

static struct sender senders[SENDERS];
static struct served receivers[RECEIVERS];
static int has_opened[RECEIVERS];
static struct shard_options shards;
static uint64_t until; /* when the step's party is to have its next one, in milliseconds */
static char store[PATHS], sessions_path[PATHS];

/* The file of sessions that each receiver has, and a later one that it has from a moment on. */
static struct its { struct sessions *now, *later; uint64_t from; } files[RECEIVERS];

/* ---- The file of sessions */

void ends_write_sessions(void)
{
    char path[PATHS + 4];
    unsigned i, all = world.shown > 0 ? world.shown : world.names;
    FILE *to;
    (void)snprintf(path, sizeof path, "%s.new", sessions_path);
    to = fopen(path, "w");
    if (to == NULL)
        exit(2);
    for (i = 0; i < all && !is_stream(i); i++)
        (void)fprintf(to, "s%u %u 17 priv 01%030x 1 10.0.0.1 10.0.0.2 %02x%030x\n", i, world.name[i].shard, i + 1,
                      i % 100 + 101, i + 2);
    for (i = 0; i < world.others; i++)
        (void)fprintf(to, "other%u 0 17 priv aa%030x 1 10.0.0.1 10.0.0.2 ab%030x\n", i, i, i);
    if (fclose(to) != 0 || rename(path, sessions_path) != 0)
        exit(2);
}

void ends_use_sessions(unsigned within)
{
    struct sessions *file = sessions_read(sessions_path);
    unsigned i;
    for (i = 0; i < RECEIVERS && file != NULL; i++) {
        sessions_forget(files[i].later);
        files[i].later = sessions_share(file);
        files[i].from = now + (within > 0 ? drawn(within) * MILLISECOND : 0);
        ends_wake(RECEIVER + (int)i, files[i].from);
    }
    sessions_forget(file);
}

/* One that has none yet reads the file as it is, as a program at its start. */
static void give_sessions(int party)
{
    struct its *to = &files[party - RECEIVER];
    if (to->later != NULL && (to->now == NULL || to->from <= now)) {
        sessions_forget(to->now);
        to->now = to->later;
        to->later = NULL;
    }
    threads_use(to->now);
}

/* Streams are in all shards. */
static struct kerberos_options kerberos(void)
{
    return (struct kerberos_options){ .keytab = has(KIND_TICKETS) ? "keytab" : NULL, .client = "sender",
                                      .service = "receiver", .allowed = "clients", .etype = 18, .shards = SHARDS };
}

/* ---- A sender */

static void start_sender(int party)
{
    const struct box *of = &world.boxes[has(KIND_FORKED) && party == SENDER_2];
    struct sender *it = &senders[party - SENDER];
    memset(it, 0, sizeof *it);
    it->options = (struct options){ .carrier = { .where = "memory", .replicas = 1 }, .kerberos = kerberos(),
                                    .life = has(KIND_TICKETS) ? LIFE : LONG_LIFE, .sessions = sessions_path,
                                    .outbox = of->path, .batch = 1, .most_waiting = has(KIND_BOUNDED) ? WAITING : 0 };
    world.is_up[party] = sender_open(it) == ANSWER_DONE;
}

static void step_sender(int party)
{
    enum answer answer = ANSWER_DONE;
    if (!sender_step(&senders[party - SENDER], &answer, &until) && !outbox_is_lost(answer))
        return;
    world.is_up[party] = 0;
    world.was_taken[party - SENDER] = answer == ANSWER_TAKEN;
}

static void stop_sender(int party)
{
    sender_close(&senders[party - SENDER]);
}

/* ---- A receiver, which serves one shard */

static void start_receiver(int party)
{
    unsigned i = (unsigned)(party - RECEIVER);
    has_opened[i] = 0;
    threads_prepare(&receivers[i], i % SHARDS);
    world.is_up[party] = has_opened[i] = threads_open(&receivers[i]) == ANSWER_DONE;
}

static void step_receiver(int party)
{
    (void)threads_turn(&receivers[party - RECEIVER], &until); /* none of them is asked to end */
}

static void stop_receiver(int party)
{
    if (has_opened[party - RECEIVER])
        threads_finish(&receivers[party - RECEIVER]);
    shard_stop(&receivers[party - RECEIVER].shard);
}

/* ---- Any program */

/* A program that ends by itself, or since it is asked to, leaves nothing. */
static void end_cleanly(int party)
{
    uint64_t took;
    if (!party_run(party, is_sender(party) ? stop_sender : stop_receiver, &took) && memory_of[party] > 0)
        rule_broken(RULE_LEAKS, "program %d ends with %lu bytes", party, (unsigned long)memory_of[party]);
    party_end(party);
}

/* One that ended by itself is started again after a second, as its unit says; another sender's outbox is left to it. */
static void note_end(int party)
{
    end_cleanly(party);
    world.ends++;
    if (!is_sender(party) || !world.was_taken[party - SENDER])
        return;
    world.was_taken[party - SENDER] = 0;
    if (!has(KIND_TAKEN_OVER))
        rule_broken(RULE_ENDED, "the sender says that another one has taken the outbox over, and there is none");
    world.may_run[party] = !has(KIND_TAKEN_OVER);
}

void ends_hold(int party, uint64_t moment)
{
    world.busy[party] = world.resumes[party] = moment;
}

void ends_wake(int party, uint64_t at)
{
    at += drawn(RARELY) == 0 ? drawn(LATE) * MILLISECOND : drawn(SOON) * MILLISECOND;
    if (at < world.woken[party])
        world.woken[party] = at;
    if (world.is_up[party] && at < world.resumes[party])
        world.resumes[party] = at > world.busy[party] ? at : world.busy[party];
}

/* Its next step is at its time, or as soon as something came. */
static uint64_t end_of_wait(int party)
{
    uint64_t at = until < UINT64_MAX / MILLISECOND ? until * MILLISECOND : UINT64_MAX;
    at = at < world.woken[party] ? at : world.woken[party];
    return at > world.busy[party] ? at : world.busy[party];
}

void ends_step(int party)
{
    static void (*const starts[])(int) = { start_receiver, start_sender };
    static void (*const steps[])(int) = { step_receiver, step_sender };
    int was_up = world.is_up[party];
    uint64_t took = 0;
    world.steps++;
    world.woken[party] = UINT64_MAX;
    until = 0;
    if (!is_sender(party))
        give_sessions(party);
    if (party_run(party, (was_up ? steps : starts)[is_sender(party)], &took)) {
        world.is_up[party] = 0;
        world.kills++;
        took += drawn(RESTARTED) * MILLISECOND;
    } else if (!world.is_up[party]) {
        note_end(party);
        took += SECOND;
    }
    ends_hold(party, now + took);
    if (world.is_up[party])
        world.resumes[party] = end_of_wait(party);
}

void ends_stop(int party, int is_clean, uint64_t moment)
{
    if (world.is_up[party] && is_clean)
        end_cleanly(party);
    else
        party_end(party);
    world.is_up[party] = 0;
    ends_hold(party, moment);
    world.kills++;
}

uint64_t ends_next(void)
{
    uint64_t at = UINT64_MAX;
    int i;
    for (i = SENDER; i < PARTIES; i++)
        if (world.may_run[i] && world.resumes[i] < at)
            at = world.resumes[i];
    return at > now + MILLISECOND ? at : now + MILLISECOND;
}

int has_one_store(void)
{
    return has(KIND_MOVED) || has(KIND_COPIED);
}

static void choose_options(void)
{
    (void)snprintf(store, sizeof store, "sqlite:%s/%s", world.folder, has_one_store() ? "store.db" : "store-%.db");
    shards = (struct shard_options){ .store = store, .carrier = { .where = "memory", .replicas = 1 },
                                     .kerberos = kerberos(), .batch = has(KIND_SLOW_EFFECTS) ? LONG_BATCH : BATCH,
                                     .skew = has(KIND_CLOCK) || has(KIND_SKEWED) ? SKEW : LONG_SKEW };
    (void)effects_choose(NULL, has(KIND_ASIDE) ? TRIES : 0); /* it only fails for a word */
}

void ends_begin(void)
{
    /* With an effect that is refused one receiver alone serves a shard, so that its refusals are counted. */
    int is_counted = has(KIND_REFUSED_A_WHILE) || has(KIND_REFUSED) || has(KIND_REFUSED_MANY) || has(KIND_SLOW_EFFECTS), i;
    path_of(sessions_path, "sessions");
    choose_options();
    for (i = SENDER; i < PARTIES; i++)
        world.may_run[i] = i != SENDER_2 && !(is_counted && i == RECEIVER + SHARDS);
    world.shown = has(KIND_LATER) ? world.names - 1 : 0;
    happened(KIND_LATER, has(KIND_LATER) != 0);
    ends_write_sessions();
    if (threads_begin(&shards, sessions_empty(), 1, NULL) != ANSWER_DONE)
        exit(2);
    ends_use_sessions(0);
    world.shown = 0;
    ends_write_sessions();
}
