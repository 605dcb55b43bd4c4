/* Sessions a second of ours beside MIT's krb5_mk_* and krb5_rd_*, on one thread, in turns in one
 * process: bench_sessions [SECONDS for each row, 0.3 where none are named].
 *
 * A session is an end that is made of its key, seals or opens some messages of 64 bytes, and ends:
 * of ours a sealer or an opener, of MIT's an auth context with its key. Then records: a text, and a
 * batch of 1,000 texts, sealed and taken by ends that are kept, beside user data of the same size.
 * Told is the best batch by the thread's processor time. */
#include "krbrelay.h"
#include "mit_end.h"

#include <stdio.h>
#include <stdlib.h>
#include <string.h>
#include <time.h>

enum { SESSIONS = 16, MOST = 10, SIZE = 64, BATCH_BYTES = 64 * 1000, ROOM = KRBRELAY_FRAME_LIMIT };

static uint8_t text[SIZE], got[ROOM], frames[MOST][1024], batch[BATCH_BYTES], frame[ROOM];
static size_t sizes[MOST];
static krb5_data mit_frames[MOST];

struct row { uint32_t mode; int etype; unsigned count; };

static void measure(double *least, void (*work)(const struct row *), const struct row *r)
{
    double start = clock_at(CLOCK_THREAD_CPUTIME_ID), taken;
    work(r);
    taken = clock_at(CLOCK_THREAD_CPUTIME_ID) - start;
    if (taken < *least)
        *least = taken;
}

/* ---- sessions of ours */

static void seal_once(struct krbrelay_sealer *sealer, const struct row *r, unsigned i)
{
    uint8_t confounder[16] = { 0 };
    krb5_data random = { KV5M_DATA, sizeof confounder, (char *)confounder };
    struct krbrelay_moment at;
    if (r->mode == KRBRELAY_PRIV)
        must(krb5_c_random_make_octets(ctx, &random), "random");
    at = moment_of_now();
    must(krbrelay_sealer_seal(sealer, text, SIZE, &at, confounder, frames[i], sizeof frames[i],
                              &sizes[i]), "seal");
}

static void sealed_sessions(const struct row *r)
{
    struct krbrelay_session session = session_of(r->mode, 0);
    for (int s = 0; s < SESSIONS; s++) {
        struct krbrelay_sealer sealer = { 0 };
        must(krbrelay_sealer_new(&sealer, r->etype, key, key_size(r->etype), &session), "new");
        for (unsigned i = 0; i < r->count; i++)
            seal_once(&sealer, r, i);
        krbrelay_sealer_free(&sealer);
    }
}

static void opened_sessions(const struct row *r)
{
    struct krbrelay_expect expect = expect_of(r->mode);
    for (int s = 0; s < SESSIONS; s++) {
        struct krbrelay_opener opener = { 0 };
        size_t size = 0;
        must(krbrelay_opener_new(&opener, r->etype, key, key_size(r->etype), &expect), "new");
        for (unsigned i = 0; i < r->count; i++) {
            struct krbrelay_moment at = moment_of_now();
            must(krbrelay_opener_unseal(&opener, frames[i], sizes[i], i, &at, got, sizeof got, &size),
                 "unseal");
            must(size != SIZE || memcmp(got, text, SIZE) != 0, "the text that was read");
        }
        krbrelay_opener_free(&opener);
    }
}

/* ---- sessions of MIT's */

static void mit_sealed_sessions(const struct row *r)
{
    krb5_data in = { KV5M_DATA, SIZE, (char *)text };
    krb5_replay_data replay;
    for (int s = 0; s < SESSIONS; s++) {
        krb5_auth_context c = mit_end(r->etype, 1, 255);
        for (unsigned i = 0; i < r->count; i++) {
            krb5_free_data_contents(ctx, &mit_frames[i]);
            must(r->mode == KRBRELAY_SAFE ? krb5_mk_safe(ctx, c, &in, &mit_frames[i], &replay)
                                          : krb5_mk_priv(ctx, c, &in, &mit_frames[i], &replay), "mk");
        }
        must(krb5_auth_con_free(ctx, c), "auth_con_free");
    }
}

static void mit_opened_sessions(const struct row *r)
{
    krb5_replay_data replay;
    for (int s = 0; s < SESSIONS; s++) {
        krb5_auth_context c = mit_end(r->etype, 255, 1);
        for (unsigned i = 0; i < r->count; i++) {
            krb5_data out;
            must(r->mode == KRBRELAY_SAFE ? krb5_rd_safe(ctx, c, &mit_frames[i], &out, &replay)
                                          : krb5_rd_priv(ctx, c, &mit_frames[i], &out, &replay), "rd");
            must(out.length != SIZE || memcmp(out.data, text, SIZE) != 0, "the text that MIT's read");
            krb5_free_data_contents(ctx, &out);
        }
        must(krb5_auth_con_free(ctx, c), "auth_con_free");
    }
}

static void sessions(const struct row *r, double seconds)
{
    double sealed = 1e9, opened = 1e9, mit_sealed = 1e9, mit_opened = 1e9;
    double start = clock_at(CLOCK_MONOTONIC);
    while (clock_at(CLOCK_MONOTONIC) - start < seconds) {
        measure(&sealed, sealed_sessions, r);
        measure(&opened, opened_sessions, r);
        measure(&mit_sealed, mit_sealed_sessions, r);
        measure(&mit_opened, mit_opened_sessions, r);
    }
    printf("%s %d %8u  %9.0f %9.0f  %9.0f %9.0f  %5.2f %5.2f\n",
           r->mode == KRBRELAY_SAFE ? "safe" : "priv", r->etype, r->count, SESSIONS / sealed,
           SESSIONS / opened, SESSIONS / mit_sealed, SESSIONS / mit_opened, mit_sealed / sealed,
           mit_opened / opened);
    fflush(stdout);
}

/* ---- records */

static struct krbrelay_sealer kept_sealer;
static struct krbrelay_opener kept_opener;
static struct krbrelay_receiver kept_receiver;
static uint64_t opened_next;

/* What is sealed: a text of SIZE bytes, or the batch. */
static void plain(const struct row *r)
{
    static const uint8_t confounder[16];
    struct krbrelay_moment at = moment_of_now();
    size_t n = 0, size = 0;
    must(krbrelay_sealer_seal(&kept_sealer, batch, r->count, &at, confounder, frame, ROOM, &n), "seal");
    must(krbrelay_opener_unseal(&kept_opener, frame, n, opened_next++, &at, got, sizeof got, &size),
         "unseal");
    must(size != r->count, "the size");
}

static void recorded(const struct row *r)
{
    static const uint8_t confounder[16];
    struct krbrelay_moment at = moment_of_now();
    uint32_t kind = r->count == SIZE ? KRBRELAY_TEXT : KRBRELAY_BATCH, told = 0;
    size_t n = 0, size = 0;
    must(krbrelay_sealer_seal_record(&kept_sealer, kind, batch, r->count, &at, confounder, frame, ROOM,
                                     &n), "seal_record");
    must(krbrelay_receiver_take(&kept_receiver, frame, n, &at, &told, got, sizeof got, &size), "take");
    must(size != r->count || told != kind, "the record");
}

static void make_kept(const struct row *r)
{
    struct krbrelay_session session = session_of(r->mode, 0);
    struct krbrelay_expect expect = expect_of(r->mode);
    size_t size = key_size(r->etype);
    must(krbrelay_sealer_new(&kept_sealer, r->etype, key, size, &session), "sealer");
    must(krbrelay_opener_new(&kept_opener, r->etype, key, size, &expect), "opener");
    must(krbrelay_receiver_new(&kept_receiver, r->etype, key, size, &expect, 0, 0), "receiver");
    opened_next = 0;
}

static void records(const struct row *r, double seconds)
{
    double as_data = 1e9, as_record = 1e9, start;
    make_kept(r);
    for (start = clock_at(CLOCK_MONOTONIC); clock_at(CLOCK_MONOTONIC) - start < seconds;)
        measure(&as_data, plain, r);
    make_kept(r);
    for (start = clock_at(CLOCK_MONOTONIC); clock_at(CLOCK_MONOTONIC) - start < seconds;)
        measure(&as_record, recorded, r);
    printf("%s %d %8u  %9.0f %9.0f  %5.2f\n", r->mode == KRBRELAY_SAFE ? "safe" : "priv", r->etype,
           r->count, 1 / as_data, 1 / as_record, as_data / as_record);
    fflush(stdout);
}

static void each(void (*run)(const struct row *, double), unsigned few, unsigned many, double seconds)
{
    for (uint32_t mode = KRBRELAY_SAFE; mode <= KRBRELAY_PRIV; mode++)
        for (int etype = 17; etype <= 18; etype++) {
            struct row one = { mode, etype, few }, other = { mode, etype, many };
            run(&one, seconds);
            run(&other, seconds);
        }
}

int main(int argc, char **argv)
{
    double seconds = argc > 1 ? atof(argv[1]) : 0.3;
    size_t size = 0;
    setenv("KRB5_CONFIG", "/dev/null", 1);
    must(krb5_init_context(&ctx), "init_context");
    for (int i = 0; i < 32; i++)
        key[i] = (uint8_t)i;
    memset(text, 0x5a, sizeof text);
    while (size < sizeof batch)
        must(krbrelay_batch_add(batch, sizeof batch, &size, text, 60), "batch_add");
    puts("Sessions a second of one thread, messages of 64 bytes: ours, MIT's, and ours over MIT's.");
    puts("mode ty messages     sealed    opened   MIT made  MIT read   made  read");
    each(sessions, 1, MOST, seconds);
    puts("Sealed and opened a second, as user data and as a record, and their ratio.");
    puts("mode ty    bytes       data    record  ratio");
    each(records, SIZE, BATCH_BYTES, seconds);
    krbrelay_sealer_free(&kept_sealer);
    krbrelay_opener_free(&kept_opener);
    krbrelay_receiver_free(&kept_receiver);
    for (int i = 0; i < MOST; i++)
        krb5_free_data_contents(ctx, &mit_frames[i]);
    krb5_free_context(ctx);
    return 0;
}
