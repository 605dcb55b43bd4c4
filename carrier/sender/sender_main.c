/* Sends the texts of many sessions, each once, whenever this process is killed. `usage` says how it
 * is called.
 *
 * What it does is sender.c's. It ends with status 3 if another sender has taken the outbox over. It may be killed at
 * any time: start it again. */
#include "sender.h"
#include "clock.h"
#include "signals.h"
#include "log.h"
#include "options.h"
#include "service.h"
#include "waiting.h"

#include <stdio.h>
#include <string.h>
#include <sys/stat.h>

/* tables/options.toml: rows, by tools/tables */
static const struct option_row rows[] = {
    { .word = "sessions", .value = "FILE", .kind = OPTION_FILE, .at = offsetof(struct options, sessions),
      .help = "a line for each session: NAME SHARD ETYPE MODE KEY FIRST FROM TO [BACK]" },
    { .word = "outbox", .value = "FILE", .at = offsetof(struct options, outbox),
      .help = "SQLite's, in whose table `text` an application puts texts" },
    { .word = "carrier", .value = "WHERE", .at = offsetof(struct options, carrier.where),
      .help = "sqlite:FILE, or nats://HOST:PORT[,..], or tls://HOST:PORT[,..]" },
    { .word = "credentials", .value = "FILE", .at = offsetof(struct options, carrier.credentials),
      .help = "who this is to NATS: a line USER PASSWORD, or NATS's own credentials;\n"
              "only its owner may read it" },
    { .word = "tls-ca", .value = "FILE", .at = offsetof(struct options, carrier.tls_ca),
      .help = "the certificates of who may sign servers': TLS is used (tls:// alone\n"
              "takes those of the system)" },
    { .word = "tls-name", .value = "NAME", .at = offsetof(struct options, carrier.tls_name),
      .help = "this name has to be in each server's certificate (any)" },
    { .word = "tls-cert", .value = "FILE", .at = offsetof(struct options, carrier.tls_cert),
      .help = "the certificate of this program" },
    { .word = "tls-key", .value = "FILE", .at = offsetof(struct options, carrier.tls_key),
      .help = "its key" },
    { .word = "replicas", .value = "N", .kind = OPTION_NUMBER, .at = offsetof(struct options, carrier.replicas),
      .low = 1, .high = 5, .initial = 1,
      .help = "so many replicas has a stream that is made; one with fewer isn't used (1)" },
    { .word = "batch", .value = "N", .kind = OPTION_NUMBER, .at = offsetof(struct options, batch), .low = 1,
      .high = BATCH_TEXTS, .initial = 1,
      .help = "so many texts go into a frame at most (1)" },
    { .word = "max-waiting", .value = "N", .kind = OPTION_NUMBER, .at = offsetof(struct options, most_waiting),
      .high = 2147483647,
      .help = "while so many texts wait, for being sealed or for a receipt, the outbox refuses\n"
              "another one with the error `the outbox is full` (0: any number may wait)" },
    { .word = "metrics", .value = "ADDRESS:PORT", .at = offsetof(struct options, metrics),
      .help = "answers GET /metrics (Prometheus's text) and GET /healthz" },
    { .word = "drain", .kind = OPTION_FLAG, .at = offsetof(struct options, drain),
      .help = "ends once all is carried that can be" },
    { .word = "keytab", .value = "FILE", .at = offsetof(struct options, kerberos.keytab),
      .help = "sessions begin by tickets: the keys of this program's principal" },
    { .word = "service", .value = "NAME", .at = offsetof(struct options, kerberos.service),
      .help = "the principal of all receivers of the store" },
    { .word = "ticket-shards", .value = "N", .kind = OPTION_NUMBER, .at = offsetof(struct options, kerberos.shards),
      .low = 1, .high = CARRIER_SHARDS, .initial = 1,
      .help = "sessions by tickets are in the shards below N (1): the same at both ends" },
    { .word = "client", .value = "NAME", .at = offsetof(struct options, kerberos.client),
      .help = "the principal of this program: a name of a text that no line has is a\n"
              "stream of it" },
    { .word = "etype", .value = "N", .kind = OPTION_NUMBER, .at = offsetof(struct options, kerberos.etype), .low = 17,
      .high = 18, .initial = 18,
      .help = "of the keys of sessions: 17 or 18 (18)" },
    { .word = "life", .value = "SECONDS", .kind = OPTION_NUMBER, .at = offsetof(struct options, life), .low = 1,
      .high = 4294967295, .initial = 86400,
      .help = "after so long a stream's next text begins a session with a new key\n"
              "(86400); SIGHUP has all streams begin one" },
};

static const struct usage usage = {
    "sender", "sender [--sessions FILE] --outbox FILE --carrier WHERE [OPTION..]\n",
    "It ends by SIGTERM. Status: 0; 1 after a fault; 2 for a wrong option; 3 if another sender\n"
    "has taken the outbox over; 4 after --drain if a session is stopped, as the outbox's table\n"
    "`stopped` says, or if there is no ticket.\n",
    rows, sizeof rows / sizeof *rows
};
/* end of rows */

static enum answer serve(struct sender *s)
{
    enum answer answer = ANSWER_DONE;
    struct waiting waiting;
    uint64_t until = 0;
    waiting_begin(&waiting, 0);
    waiting_watch(&waiting, s->options.outbox);
    if (s->carrier->file != NULL)
        waiting_watch(&waiting, s->carrier->file);
    service_tell_ready();
    while (!is_ending() && !sender_step(s, &answer, &until)) {
        waiting_hear(&waiting, s->hears ? s->carrier->descriptor : -1);
        (void)waiting_until(&waiting, until); /* whatever came, a round looks for it */
    }
    waiting_end(&waiting);
    service_tell_end();
    return answer == ANSWER_AGAIN ? ANSWER_DONE : answer;
}

static int run_sender(struct sender *s)
{
    uint64_t began = nanoseconds();
    size_t held;
    uint64_t stopped;
    enum answer answer = sender_open(s) == ANSWER_DONE ? serve(s) : ANSWER_FAULT;
    log_fact(LEVEL_INFO, "sender_ended", field_number("frames", s->sealing.frames),
             field_number("published", s->published), field_number("again", s->again),
             field_seconds("seconds", nanoseconds() - began),
             field_seconds("sealing", s->sealing.nanoseconds),
             field_seconds("outbox", s->storing), field_seconds("carrier", s->carrying));
    if (answer == ANSWER_TAKEN)
        log_fact(LEVEL_ERROR, "outbox_taken", field_text("file", s->options.outbox),
                 field_text("text", "another sender has taken it over: this one ends"));
    held = s->unopened;
    stopped = 0;
    if (!outbox_is_lost(answer) && outbox_count_stopped(&s->outbox, &stopped) != ANSWER_DONE)
        answer = ANSWER_FAULT; /* whether all could be sent isn't known */
    sender_close(s);
    log_end();
    if (outbox_is_lost(answer))
        return answer == ANSWER_TAKEN ? 3 : !is_ending();
    return s->options.drain && !is_ending() && stopped + held > 0 ? 4 : 0;
}

int main(int count, char **words)
{
    static struct sender sender;
    options_read(&usage, count, words, &sender.options);
    if ((sender.options.sessions == NULL && sender.options.kerberos.keytab == NULL) || sender.options.outbox == NULL
        || sender.options.carrier.where == NULL)
        options_refuse(&usage);
    carrier_check_options("sender", &sender.options.carrier);
    service_check_option("sender", sender.options.metrics);
    kerberos_check_options("sender", &sender.options.kerberos, "--client",
                           sender.options.kerberos.client);
    umask(077); /* databases have texts and frames: they are for their owner alone */
    end_by_signals();
    if (sender.options.kerberos.keytab != NULL)
        note_hangups();
    return run_sender(&sender);
}
