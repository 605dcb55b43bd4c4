/* What was counted of a shard, for its log and for who looks at the metrics. */
#include "clock.h"
#include "log.h"
#include "service.h"
#include "shard.h"
#include "text.h"

#include <math.h>
#include <stdio.h>

#define SECOND UINT64_C(1000000000)  /* nanoseconds */
#define SILENCE UINT64_C(2000000000) /* nanoseconds: service.h waits for ten seconds more */

/* A number's name, its type, what it is, and its value: of a shard; and those of which rows are below.
 * tables/metrics.toml: metrics, by tools/tables */
#define OF_SHARD(X) \
    X("krbrelay_receiver_texts_total", "counter", "Texts that took effect", c->texts) \
    X("krbrelay_receiver_text_bytes_total", "counter", "Bytes of all texts", c->bytes) \
    X("krbrelay_receiver_texts_put_aside_total", "counter", "Texts that are in the table aside, with their reason", \
      c->aside) \
    X("krbrelay_receiver_accepted_frames_total", "counter", "Frames that were accepted", c->accepted) \
    X("krbrelay_receiver_opened_sessions_total", "counter", "Sessions that began by a ticket", c->opened) \
    X("krbrelay_receiver_receipts_total", "counter", "Receipts that were published", c->receipts) \
    X("krbrelay_receiver_repeated_frames_total", "counter", "Frames that had been accepted before", c->repeats) \
    X("krbrelay_receiver_early_frames_total", "counter", "Frames that came before one that is missing", c->early) \
    X("krbrelay_receiver_transactions_total", "counter", "Transactions that were committed", c->commits) \
    X("krbrelay_receiver_fenced_transactions_total", "counter", "Transactions that another receiver preceded", \
      c->fenced) \
    X("krbrelay_receiver_opening_seconds_total", "counter", "Time for opening frames", (double)c->opening / 1e9) \
    X("krbrelay_receiver_carrier_seconds_total", "counter", "Time for fetching frames", (double)c->fetching / 1e9) \
    X("krbrelay_receiver_store_seconds_total", "counter", "Time for effects and transactions", \
      (double)c->storing / 1e9) \
    X("krbrelay_receiver_offset", "gauge", "How far the shard was read", s->reading.read.offset) \
    X("krbrelay_receiver_lag_frames", "gauge", "Frames that the carrier has after it", \
      is_known ? (double)behind : NAN) \
    X("krbrelay_receiver_loaded_sessions", "gauge", "Sessions of which frames came", s->count) \
    X("krbrelay_receiver_standing_sessions", "gauge", "Sessions that miss a frame, or had one refused", \
      s->standing.count)
#define REFUSED_FRAMES_TOTAL "krbrelay_receiver_refused_frames_total", "counter", \
    "Other frames that were refused, by reason"
#define SESSION_STANDS "krbrelay_receiver_session_stands", "gauge", "Sessions that stand still, some of them by name"
/* end of metrics */
#define REFUSED(reason) { REFUSED_FRAMES_TOTAL, "reason=\"" reason "\"" },
#define REFUSED_BY(name) REFUSED(#name)
#define UNOPENED(name) REFUSED("OPENING_" #name)
#define METRIC(name, type, help, value) { name, type, help, NULL },
#define VALUE(name, type, help, value) (double)(value),

/* Those of refusals are the last. */
const struct metric shard_metrics[] = {
    OF_SHARD(METRIC)
    REFUSED("NO_LINE") REFUSAL_NAMES(REFUSED_BY) REFUSED("OTHER") OPENING_REASONS(UNOPENED)
};
const unsigned shard_metrics_count = sizeof shard_metrics / sizeof *shard_metrics;
const struct metric shard_stands_metric = { SESSION_STANDS, NULL };

#define ANSWER(name) KRBRELAY_##name,
static const uint32_t refusals[OTHER_REFUSAL] = { 0, REFUSAL_NAMES(ANSWER) };

void shard_count_refused(struct shard_counts *counts, uint32_t answer)
{
    unsigned i = 0;
    while (i < OTHER_REFUSAL && refusals[i] != answer)
        i++;
    counts->refused[i]++;
}

void shard_note_alive(struct shard *s)
{
    uint64_t now = nanoseconds();
    if (now - s->shown_at < SECOND)
        return;
    s->shown_at = now;
    shard_show(s, s->number);
}

void shard_count_unopened(struct shard_counts *counts, enum opening_answer answer)
{
    counts->refused[OTHER_REFUSAL + answer]++;
}

static unsigned long count_refused(const struct shard_counts *counts)
{
    unsigned long all = 0;
    unsigned i;
    for (i = 0; i < REFUSALS; i++)
        all += counts->refused[i];
    return all;
}

void shard_report(const struct shard *s, const char *event, uint64_t took)
{
    const struct shard_counts *c = &s->counts;
    log_numbers(event, field_number("shard", s->number), field_number("texts", c->texts),
                field_number("aside", c->aside),
                field_number("frames", c->accepted), field_number("opened", c->opened),
                field_number("receipts", c->receipts),
                field_number("repeats", c->repeats),
                field_number("early", c->early), field_number("refused", count_refused(c)),
                field_number("commits", c->commits), field_number("fenced", c->fenced),
                field_number("bytes", c->bytes),
                field_seconds("seconds", took), field_seconds("opening", c->opening),
                field_seconds("carrier", c->fetching), field_seconds("store", c->storing));
}

static void name_standing(struct shard *s, unsigned part)
{
    const char *names[SERVICE_NAMES];
    size_t i, count = 0;
    for (i = 0; i < s->standing.count && count < SERVICE_NAMES; i++)
        names[count++] = ((struct receiving *)s->standing.at[i])->of.name;
    service_name(part, names, count);
}

void shard_show(struct shard *s, unsigned part)
{
    const struct shard_counts *c = &s->counts;
    char labels[32];
    uint64_t behind = 0;
    unsigned i;
    int is_known = s->is_loaded && s->carrier->behind(s->carrier, &behind) == ANSWER_DONE;
    double values[sizeof shard_metrics / sizeof *shard_metrics] = { OF_SHARD(VALUE) };
    for (i = 0; i < REFUSALS; i++)
        values[shard_metrics_count - REFUSALS + i] = (double)c->refused[i];
    write_whole(labels, sizeof labels, "shard=\"%u\"", s->number);
    service_alive(part, s->is_loaded && nanoseconds() - s->answered_at < SILENCE, labels, values);
    name_standing(s, part);
}
