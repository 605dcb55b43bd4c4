/* What was counted of a sender, for who looks at the metrics. */
#include "clock.h"
#include "sender.h"
#include "service.h"
#include "text.h"

#include <math.h>
#include <stdio.h>

#define SILENCE 1.0 /* seconds: service.h waits for ten more before it says so */

/* A number's name, its type, what it is, and its value: of the sender; and those of which rows are below.
 * tables/metrics.toml: metrics, by tools/tables */
#define OF_SENDER(X) \
    X("krbrelay_sender_sealed_frames_total", "counter", "Frames that were sealed", s->sealing.frames) \
    X("krbrelay_sender_published_frames_total", "counter", "Frames that were published", s->published) \
    X("krbrelay_sender_republished_frames_total", "counter", "Frames among them that were once more", s->again) \
    X("krbrelay_sender_sealing_seconds_total", "counter", "Time for sealing", (double)s->sealing.nanoseconds / 1e9) \
    X("krbrelay_sender_outbox_seconds_total", "counter", "Time for the outbox", (double)s->storing / 1e9) \
    X("krbrelay_sender_carrier_seconds_total", "counter", "Time for the carrier, with waits for its confirmations", \
      (double)s->carrying / 1e9) \
    X("krbrelay_sender_waiting_texts", "gauge", \
      "Texts that wait for being sealed or for a receipt, as --max-waiting counts them", \
      counted(s, outbox_count_texts)) \
    X("krbrelay_sender_waiting_texts_limit", "gauge", "Texts that may wait, as --max-waiting says; 0: any number", \
      s->options.most_waiting) \
    X("krbrelay_sender_oldest_text_seconds", "gauge", \
      "Since the oldest text was put in that waits for being sealed, and whose session isn't stopped, if that is known", \
      age_of_oldest(s)) \
    X("krbrelay_sender_receipts_total", "counter", "Receipts that covered more than those before", s->receipts) \
    X("krbrelay_sender_frames_without_receipt", "gauge", "Frames that are carried and wait for a receipt", \
      s->unreceipted) \
    X("krbrelay_sender_held_sessions", "gauge", "Sessions that wait for a ticket, or for the one before", s->unopened) \
    X("krbrelay_sender_standing_sessions", "gauge", \
      "Sessions that stand: nobody confirms, answers or takes their frames", s->standing) \
    X("krbrelay_sender_stopped_sessions", "gauge", "Sessions that are stopped", counted(s, outbox_count_stopped)) \
    X("krbrelay_sender_silent_seconds", "gauge", \
      "Since a frame was carried, if any waits for the carrier's answer or the carrier is away", silent)
#define DELAY_SECONDS "krbrelay_sender_delay_seconds_bucket", "histogram", \
    "Seconds from the insertion of a text until its row was deleted, since a receipt said that it took effect"
#define DELAY_SECONDS_SUM "krbrelay_sender_delay_seconds_sum"
#define DELAY_SECONDS_COUNT "krbrelay_sender_delay_seconds_count"
#define WAITING_FRAMES "krbrelay_sender_waiting_frames", "gauge", "Frames of a shard that aren't carried"
/* end of metrics */
#define DELAYS_UP_TO(bound) { DELAY_SECONDS, "le=\"" #bound "\"" },
#define METRIC(name, type, help, value) { name, type, help, NULL },
#define VALUE(name, type, help, value) (double)(value),

static const struct metric metrics[] = {
    OF_SENDER(METRIC)
    DELAY_BOUNDS(DELAYS_UP_TO)
    DELAYS_UP_TO(+Inf)
    { DELAY_SECONDS_SUM, NULL, NULL, NULL },
    { DELAY_SECONDS_COUNT, NULL, NULL, NULL },
    { WAITING_FRAMES, NULL },
};

enum {
    METRICS = sizeof metrics / sizeof *metrics,
    DELAYS_AT = METRICS - 1 - (DELAY_BOUNDS_COUNT + 3)
};

int sender_begin_showing(void)
{
    return service_begin("sender", metrics, METRICS, NULL, 1 + CARRIER_SHARDS);
}

static void show_lane(const struct lane *lane, unsigned part)
{
    double values[METRICS];
    char labels[32];
    unsigned i;
    for (i = 0; i + 1 < METRICS; i++)
        values[i] = NAN;
    values[METRICS - 1] = (double)lane->uncarried;
    write_whole(labels, sizeof labels, "shard=\"%u\"", lane->shard);
    service_alive(part, 1, labels, values);
}

/* How long the oldest text has waited, 0 if none waits; NAN if that isn't known. */
static double age_of_oldest(struct sender *s)
{
    uint64_t since = 0, now = read_clock().seconds;
    int is_there = 0;
    if (outbox_oldest_text(&s->outbox, &is_there, &since) != ANSWER_DONE || (is_there && since == 0))
        return NAN;
    return is_there && now > since ? (double)(now - since) : 0;
}

/* What the outbox counts, or NAN if it can't be read now. */
static double counted(struct sender *s, int (*count)(struct outbox *, uint64_t *))
{
    uint64_t found = 0;
    return count(&s->outbox, &found) == 0 ? (double)found : NAN;
}

/* Each bucket has those of the ones before it too; after the last come the sum and the count. */
static void show_delays(const struct delays *delays, double *values)
{
    uint64_t all = 0;
    unsigned i;
    for (i = 0; i <= DELAY_BOUNDS_COUNT; i++) {
        all += delays->counts[i];
        *values++ = (double)all;
    }
    *values++ = delays->seconds;
    *values = (double)all;
}

void sender_show(struct sender *s)
{
    double silent = (double)(nanoseconds() - s->carried_at) / 1e9;
    double values[METRICS] = { OF_SENDER(VALUE) };
    unsigned i;
    show_delays(&s->outbox.delays, values + DELAYS_AT);
    values[METRICS - 1] = NAN;
    service_alive(0, silent < SILENCE, "", values);
    for (i = 0; i < s->lane_count; i++)
        show_lane(&s->lanes[i], 1 + i);
}
