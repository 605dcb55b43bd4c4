/* Receives the sessions of some shards: each text takes effect once and in order, whenever this
 * process is killed, and however many others serve the same shards. `usage` says how it is called.
 *
 * A thread for each shard does what shard.h says. If the store is away for a moment it is opened
 * again until it is there. It may be killed at any time: start it again. */
#include "clock.h"
#include "effects.h"
#include "signals.h"
#include "log.h"
#include "options.h"
#include "service.h"
#include "shard_threads.h"
#include "shard_locks.h"
#include "option_words.h"

#include <limits.h>
#include <math.h>
#include <stdio.h>
#include <stdlib.h>
#include <string.h>
#include <sys/stat.h>

enum { SECOND = 1000 }; /* milliseconds */

struct options {
    struct shard_options shard;
    const char *sessions, *metrics, *effect;
    unsigned refusals;    /* after so many a text is put aside; 0: never */
    unsigned char is_served[CARRIER_SHARDS];
    unsigned shard_count; /* 0: it shares those of the sessions with other receivers */
    int has_shards;
};

static struct options options;
static struct sessions *sessions; /* the file, as it was read last */
static struct waiting waiting;    /* where this thread waits; what comes it passes on to those of shards */

/* ---- Shards that are shared */

static struct shard_locks *locks;
static struct carrier *look;  /* by which it asks whether the carrier is there; NULL: it has to be opened (again) */
static int is_cut_off;        /* from the carrier: shards are others' until it answers */
static unsigned char is_closed[CARRIER_SHARDS]; /* with --until-closed: all its sessions are */

static int is_wanted(unsigned shard)
{
    int has_tickets = options.shard.kerberos.keytab != NULL
                      && shard < options.shard.kerberos.shards;
    return (has_tickets || sessions_have_shard(sessions, shard)) && !is_closed[shard];
}

/* How many shards have to be served by somebody. */
static unsigned count_wanted(void)
{
    unsigned shard, count = 0;
    for (shard = 0; shard < CARRIER_SHARDS; shard++)
        count += is_wanted(shard) != 0;
    return count;
}

static unsigned count_served(void)
{
    unsigned shard, count = 0;
    for (shard = 0; shard < CARRIER_SHARDS; shard++)
        count += threads_state(shard) == SHARD_SERVED;
    return count;
}

/* Takes shards that nobody has, so many at most, from a drawn one on. */
static void take_shards(unsigned count)
{
    unsigned from = (unsigned)rand() % CARRIER_SHARDS, i;
    for (i = 0; i < CARRIER_SHARDS && count > 0; i++) {
        unsigned shard = (from + i) % CARRIER_SHARDS;
        int taken;
        if (!is_wanted(shard) || threads_state(shard) != SHARD_IDLE)
            continue;
        taken = shard_locks_take(locks, shard);
        if (taken < 0)
            return;
        count -= taken == 1 && threads_start(shard);
    }
}

/* Has so many threads end after their transactions, and those of shards that aren't this one's. */
static void leave_shards(unsigned count)
{
    unsigned shard;
    for (shard = 0; shard < CARRIER_SHARDS; shard++) {
        int is_own = is_wanted(shard) && locks->has[shard];
        if (threads_state(shard) != SHARD_SERVED || (is_own && count == 0))
            continue;
        threads_leave(shard);
        count -= count > 0 && is_own;
    }
}

/* Gives the locks back of those that aren't served any more. */
static void give_back_shards(void)
{
    unsigned shard;
    for (shard = 0; shard < CARRIER_SHARDS; shard++) {
        if (threads_state(shard) != SHARD_IDLE || !locks->has[shard])
            continue;
        is_closed[shard] = (unsigned char)threads_has_closed(shard);
        shard_locks_give_back(locks, shard);
    }
}

/* Whether the carrier answers a question about a shard: one that another receiver may serve, if there is one. */
static int is_answered(void)
{
    static unsigned shard;
    uint64_t list, end;
    unsigned i, last = shard;
    if (look == NULL && (look = carrier_open(&options.shard.carrier)) == NULL)
        return 0;
    for (i = 1; i <= CARRIER_SHARDS; i++) {
        shard = (last + i) % CARRIER_SHARDS;
        if (is_wanted(shard) && threads_state(shard) != SHARD_SERVED)
            break;
    }
    return !look->is_away(look) && look->find_list(look, shard, &list, &end) == ANSWER_DONE;
}

/* Looks whether it is cut off from the carrier, where another receiver may not be: 1 if that has changed. */
static int look_at_carrier(int receivers)
{
    int was = is_cut_off;
    if (was || (receivers > 1 && threads_is_unanswered()))
        is_cut_off = !is_answered();
    locks->is_cut_off = is_cut_off;
    if (is_cut_off == was)
        return 0;
    if (is_cut_off)
        log_fact(LEVEL_WARNING, "receiver_cut_off", field_text("text", "the carrier answers nothing: its shards"
                 " are left to other receivers until it does"));
    else
        log_fact(LEVEL_INFO, "receiver_back", field_text("text", "the carrier answers: it shares the shards again"));
    return 1;
}

/* Its health, as that of a shard: one that is cut off serves none. */
static void show_locks(void)
{
    double values[SERVICE_METRICS];
    unsigned i;
    for (i = 0; i < SERVICE_METRICS; i++)
        values[i] = NAN;
    service_alive(CARRIER_SHARDS, !is_cut_off, "", values);
}

static void report_shared(int receivers)
{
    static unsigned last = UINT_MAX;
    unsigned served = count_served();
    if (served == last)
        return;
    last = served;
    log_fact(LEVEL_INFO, "shards_shared", field_number("receivers", (uint64_t)receivers),
             field_number("shards", count_wanted()), field_number("served", served));
}

/* Each receiver serves the same part of the shards, rounded up. */
static void share(void)
{
    int receivers = locks->calls->count(locks);
    unsigned part = 0, served;
    show_locks();
    if (look != NULL)
        (void)look->is_away(look); /* its calls answer what its server asks */
    if (receivers < !is_cut_off || (look_at_carrier(receivers) && !is_cut_off))
        return; /* the store is away: what is served stays so; or it is counted from now on */
    if (!is_cut_off)
        part = (count_wanted() + (unsigned)receivers - 1) / (unsigned)receivers;
    served = count_served();
    leave_shards(served > part ? served - part : 0);
    if (served < part)
        take_shards(part - served);
    report_shared(receivers);
}

/* ---- */

static void start_shards(void)
{
    unsigned shard;
    for (shard = 0; shard < CARRIER_SHARDS && !is_ending(); shard++)
        if (options.is_served[shard] && !threads_start(shard))
            end_now();
}

/* Looks whether the file of sessions has changed. */
static void look_at_sessions(void)
{
    struct sessions *again = sessions_read_again(sessions);
    if (again == NULL)
        return;
    threads_use(again);
    threads_wake();
    sessions_forget(sessions);
    sessions = again;
    memset(is_closed, 0, sizeof is_closed);
}

/* Whether there is nothing to do any more. */
static int is_done(void)
{
    if (threads_count() > 0)
        return 0;
    if (is_ending() || locks == NULL)
        return 1;
    return options.shard.until_closed && count_wanted() == 0;
}

/* Once all shards that are served have the carrier open, its file is there. */
static void watch_carrier(void)
{
    const char *file = carrier_file(&options.shard.carrier);
    if (file == NULL || waiting.count > 0 || threads_count() == 0 || !threads_is_ready())
        return;
    waiting_watch(&waiting, file);
    threads_wake();
}

static void do_each_second(void)
{
    if (locks != NULL)
        give_back_shards();
    threads_look_at_stores();
    if (!is_ending())
        look_at_sessions();
    if (locks != NULL && !is_ending())
        share();
    service_tell_alive();
}

/* Until all threads have ended: sees to the shards, and tells the supervisor how it stands. */
static void watch(void)
{
    int is_ready = 0, is_ended = 0;
    uint64_t next = 0;
    while (!is_done()) {
        if (threads_join() > 0 && locks != NULL)
            give_back_shards();
        watch_carrier();
        if (milliseconds() >= next) {
            do_each_second();
            next = milliseconds() + SECOND;
        }
        if (!is_ready && threads_is_ready()) {
            service_tell_ready();
            is_ready = 1;
        }
        if (!is_ended && is_ending()) {
            service_tell_end();
            is_ended = 1;
        }
        if (waiting_until(&waiting, next))
            threads_wake();
    }
}

/* 0, or 1 after a fault at the start. */
static int serve_shards(void)
{
    int is_fine;
    waiting_begin(&waiting, 1);
    is_fine = effects_choose(options.effect, options.refusals) == ANSWER_DONE
              && threads_begin(&options.shard, sessions, options.shard_count == 0, &waiting) == ANSWER_DONE
              && (options.metrics == NULL || service_listen(options.metrics) == 0);
    if (is_fine && options.shard_count == 0)
        is_fine = (locks = shard_locks_open(options.shard.store)) != NULL;
    if (is_fine && locks != NULL)
        look = carrier_open(&options.shard.carrier); /* while it is there; else it is opened later */
    if (is_fine) {
        start_shards();
        watch();
        is_fine = !threads_failed();
    }
    if (locks != NULL)
        locks->calls->close(locks);
    if (look != NULL)
        look->close(look);
    threads_end();
    waiting_end(&waiting);
    service_end();
    return !is_fine;
}

/* ---- Options */

static void read_shards(void *given, const char *text)
{
    struct options *o = given;
    int is_auto = strcmp(text, "auto") == 0;
    o->shard_count = is_auto ? 0 : read_ranges(text, CARRIER_SHARDS, o->is_served);
    o->has_shards = is_auto || o->shard_count > 0;
    if (o->has_shards)
        return;
    end_with(2, "receiver: --shards '%s': name shards below %d, such as 0-3,7, or auto\n", text,
             CARRIER_SHARDS);
}

/* tables/options.toml: rows, by tools/tables */
static const struct option_row rows[] = {
    { .word = "sessions", .value = "FILE", .kind = OPTION_FILE, .at = offsetof(struct options, sessions),
      .help = "a line for each session: NAME SHARD ETYPE MODE KEY FIRST FROM TO [BACK]" },
    { .word = "store", .value = "WHERE", .at = offsetof(struct options, shard.store),
      .help = "sqlite:FILE, in whose name '%' is the shard, or\n"
              "postgresql://USER@HOST/DATABASE" },
    { .word = "carrier", .value = "WHERE", .at = offsetof(struct options, shard.carrier.where),
      .help = "sqlite:FILE, or nats://HOST:PORT[,..], or tls://HOST:PORT[,..]" },
    { .word = "credentials", .value = "FILE", .at = offsetof(struct options, shard.carrier.credentials),
      .help = "who this is to NATS: a line USER PASSWORD, or NATS's own credentials;\n"
              "only its owner may read it" },
    { .word = "tls-ca", .value = "FILE", .at = offsetof(struct options, shard.carrier.tls_ca),
      .help = "the certificates of who may sign servers': TLS is used (tls:// alone\n"
              "takes those of the system)" },
    { .word = "tls-name", .value = "NAME", .at = offsetof(struct options, shard.carrier.tls_name),
      .help = "this name has to be in each server's certificate (any)" },
    { .word = "tls-cert", .value = "FILE", .at = offsetof(struct options, shard.carrier.tls_cert),
      .help = "the certificate of this program" },
    { .word = "tls-key", .value = "FILE", .at = offsetof(struct options, shard.carrier.tls_key),
      .help = "its key" },
    { .word = "shards", .value = "LIST", .kind = OPTION_TAKEN, .take = read_shards,
      .help = "the shards to be served, such as 0-3,7; auto: those of the sessions, which\n"
              "all receivers of the store that say so share" },
    { .word = "replicas", .value = "N", .kind = OPTION_NUMBER, .at = offsetof(struct options, shard.carrier.replicas),
      .low = 1, .high = 5, .initial = 1,
      .help = "a stream with fewer isn't read; so many has that of receipts, if it is made\n"
              "(1)" },
    { .word = "batch", .value = "N", .kind = OPTION_NUMBER, .at = offsetof(struct options, shard.batch), .low = 1,
      .high = 4096, .initial = 1024,
      .help = "so many frames go into a transaction at most (1024)" },
    { .word = "skew", .value = "SECONDS", .kind = OPTION_NUMBER, .at = offsetof(struct options, shard.skew),
      .high = 4294967295, .initial = 86400,
      .help = "by so much a frame's time may be off (86400): more than the time for\n"
              "which the carrier keeps frames, or their session stands still" },
    { .word = "metrics", .value = "ADDRESS:PORT", .at = offsetof(struct options, metrics),
      .help = "answers GET /metrics (Prometheus's text) and GET /healthz" },
    { .word = "effect", .value = "EFFECT", .at = offsetof(struct options, effect),
      .help = "sql:STATEMENT: each text runs this statement of the store, in place of being a\n"
              "row of `effect`: :session, :client, :stream, :number, :part and :text are the\n"
              "text's; object:FILE: each text is given to `take_effect` of a shared object\n"
              "(effect.h); command:WORDS: each text is a line of JSON for this command, which\n"
              "answers a line: `ok`, `refuse REASON` or `again`" },
    { .word = "put-aside", .value = "N", .kind = OPTION_NUMBER, .at = offsetof(struct options, refusals),
      .high = 4294967295,
      .help = "a text that was refused N times is put into the table `aside`, with the\n"
              "reason (0: it is tried again for ever)" },
    { .word = "until-closed", .kind = OPTION_FLAG, .at = offsetof(struct options, shard.until_closed),
      .help = "ends once all sessions are closed" },
    { .word = "keytab", .value = "FILE", .at = offsetof(struct options, shard.kerberos.keytab),
      .help = "sessions begin by tickets: the keys of this program's principal" },
    { .word = "service", .value = "NAME", .at = offsetof(struct options, shard.kerberos.service),
      .help = "the principal of all receivers of the store" },
    { .word = "ticket-shards", .value = "N", .kind = OPTION_NUMBER,
      .at = offsetof(struct options, shard.kerberos.shards), .low = 1, .high = CARRIER_SHARDS, .initial = 1,
      .help = "sessions by tickets are in the shards below N (1): the same at both ends" },
    { .word = "allow", .value = "FILE", .at = offsetof(struct options, shard.kerberos.allowed),
      .help = "the clients that may begin sessions: a principal each line" },
};

static const struct usage usage = {
    "receiver", "receiver [--sessions FILE] --store WHERE --carrier WHERE --shards LIST|auto [OPTION..]\n",
    "It ends by SIGTERM. Status: 0; 1 after a fault at the start, or once the carrier's connection has\n"
    "ended for good, as after refused credentials; 2 for a wrong option.\n",
    rows, sizeof rows / sizeof *rows
};
/* end of rows */

int main(int count, char **words)
{
    int status;
    options_read(&usage, count, words, &options);
    if ((options.sessions == NULL && options.shard.kerberos.keytab == NULL) || options.shard.store == NULL
        || options.shard.carrier.where == NULL || !options.has_shards)
        options_refuse(&usage);
    carrier_check_options("receiver", &options.shard.carrier);
    store_check_option("receiver", options.shard.store);
    effects_check_option("receiver", options.effect);
    service_check_option("receiver", options.metrics);
    kerberos_check_options("receiver", &options.shard.kerberos, "--allow",
                           options.shard.kerberos.allowed);
    if (options.shard.until_closed && options.shard.kerberos.keytab != NULL)
        end_with(2, "receiver: --until-closed is for sessions of a file alone\n");
    umask(077); /* databases have texts and frames: they are for their owner alone */
    end_by_signals();
    srand((unsigned)nanoseconds());
    sessions = options.sessions != NULL ? sessions_read(options.sessions) : sessions_empty();
    if (sessions == NULL)
        return 1;
    status = serve_shards();
    sessions_forget(sessions);
    log_end();
    return status;
}
