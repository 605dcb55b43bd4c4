/* Messages a second of ours beside MIT's krb5_mk_* and krb5_rd_*, on one thread, in turns in one
 * process, and of ours 32 sealed in one call: bench [SECONDS for each row, 0.3 where none are named].
 *
 * Each message is made by one end and read by the other, numbers going on, times checked by both.
 * Printed is the best batch of 32 by the thread's processor time, which is the least disturbed one on
 * a busy machine. Our confounder comes from MIT's generator, as MIT's does. */
#include "krbrelay.h"
#include "mit_end.h"

#include <stdio.h>
#include <stdlib.h>
#include <string.h>
#include <time.h>

enum { BATCH = 32, LONGEST = 60000, LONGEST_FRAME = LONGEST + 500 };

static uint8_t text[LONGEST], frames[BATCH][KRBRELAY_FRAME_LIMIT], got[KRBRELAY_FRAME_LIMIT];
static uint8_t together[BATCH * LONGEST_FRAME];
static size_t sizes[BATCH], together_sizes[KRBRELAY_MOST_MESSAGES];
static krb5_data mit_frames[BATCH], mit_texts[BATCH];

struct ends {
    uint32_t mode;
    int etype;
    size_t len;
    struct krbrelay_sealer sealer;
    struct krbrelay_opener opener;
    krb5_auth_context sender, receiver;
};

/* The seconds of a batch, the best so far. */
struct best { double together, made, read, in_place, mit_made, mit_read, handles; };

/* The processor time that the work takes, if it is the least so far. */
static void measure(double *least, void (*work)(struct ends *), struct ends *e)
{
    double start = clock_at(CLOCK_THREAD_CPUTIME_ID), taken;
    work(e);
    taken = clock_at(CLOCK_THREAD_CPUTIME_ID) - start;
    if (taken < *least)
        *least = taken;
}

static void draw(const struct ends *e, uint8_t confounder[16])
{
    krb5_data random = { KV5M_DATA, 16, (char *)confounder };
    if (e->mode == KRBRELAY_PRIV)
        must(krb5_c_random_make_octets(ctx, &random), "random");
}

/* The messages of a batch in one call. */
static void make_together(struct ends *e)
{
    struct krbrelay_unsealed messages[BATCH] = { 0 };
    size_t failed = 0;
    for (int i = 0; i < BATCH; i++) {
        messages[i].user_data = text;
        messages[i].user_data_len = e->len;
        messages[i].at = moment_of_now();
        draw(e, messages[i].confounder);
    }
    must(krbrelay_sealer_seal_many(&e->sealer, messages, BATCH, together, sizeof together,
                                   together_sizes, &failed), "seal_many");
}

static void make_ours(struct ends *e)
{
    for (int i = 0; i < BATCH; i++) {
        uint8_t confounder[16] = { 0 };
        struct krbrelay_moment at;
        draw(e, confounder);
        at = moment_of_now();
        must(krbrelay_sealer_seal(&e->sealer, text, e->len, &at, confounder, frames[i],
                                  KRBRELAY_FRAME_LIMIT, &sizes[i]), "seal");
    }
}

static void read_ours(struct ends *e)
{
    uint64_t next = 0;
    size_t size = 0;
    must(krbrelay_sealer_next(&e->sealer, &next), "next");
    for (unsigned i = 0; i < BATCH; i++) {
        struct krbrelay_moment at = moment_of_now();
        must(krbrelay_opener_unseal(&e->opener, frames[i], sizes[i], next - BATCH + i, &at, got,
                                    sizeof got, &size), "unseal");
    }
    must(size != e->len || memcmp(got, text, size) != 0, "the text that was read");
}

/* After read_ours: the frames are overwritten. */
static void read_in_place(struct ends *e)
{
    uint64_t next = 0;
    size_t size = 0;
    must(krbrelay_sealer_next(&e->sealer, &next), "next");
    for (unsigned i = 0; i < BATCH; i++) {
        struct krbrelay_moment at = moment_of_now();
        must(krbrelay_opener_unseal_in_place(&e->opener, frames[i], sizes[i], next - BATCH + i,
                                             &at, &size), "unseal_in_place");
    }
    must(size != e->len || memcmp(frames[0], text, size) != 0, "the text that was read in place");
}

static void make_mit(struct ends *e)
{
    krb5_data in = { KV5M_DATA, (unsigned)e->len, (char *)text };
    krb5_replay_data replay;
    for (int i = 0; i < BATCH; i++)
        must(e->mode == KRBRELAY_SAFE
                 ? krb5_mk_safe(ctx, e->sender, &in, &mit_frames[i], &replay)
                 : krb5_mk_priv(ctx, e->sender, &in, &mit_frames[i], &replay),
             "mk");
}

static void read_mit(struct ends *e)
{
    krb5_replay_data replay;
    for (int i = 0; i < BATCH; i++)
        must(e->mode == KRBRELAY_SAFE
                 ? krb5_rd_safe(ctx, e->receiver, &mit_frames[i], &mit_texts[i], &replay)
                 : krb5_rd_priv(ctx, e->receiver, &mit_frames[i], &mit_texts[i], &replay),
             "rd");
}

static void free_mit(struct ends *e)
{
    for (int i = 0; i < BATCH; i++) {
        must(mit_texts[i].length != e->len, "the text that MIT's library read");
        krb5_free_data_contents(ctx, &mit_frames[i]);
        krb5_free_data_contents(ctx, &mit_texts[i]);
    }
}

static void make_handles(struct ends *e)
{
    struct krbrelay_session session = session_of(e->mode, 0);
    for (int i = 0; i < BATCH; i++) {
        struct krbrelay_sealer once = { 0 };
        must(krbrelay_sealer_new(&once, e->etype, key, key_size(e->etype), &session), "new");
        krbrelay_sealer_free(&once);
    }
}

static struct ends ends_of(uint32_t mode, int etype, size_t len)
{
    struct ends e = { .mode = mode, .etype = etype, .len = len };
    struct krbrelay_session session = session_of(mode, 0);
    struct krbrelay_expect expect = expect_of(mode);
    must(krbrelay_sealer_new(&e.sealer, etype, key, key_size(etype), &session), "sealer");
    must(krbrelay_opener_new(&e.opener, etype, key, key_size(etype), &expect), "opener");
    e.sender = mit_end(etype, 1, 255);
    e.receiver = mit_end(etype, 255, 1);
    return e;
}

static void end_all(struct ends *e)
{
    krbrelay_sealer_free(&e->sealer);
    krbrelay_opener_free(&e->opener);
    krb5_auth_con_free(ctx, e->sender);
    krb5_auth_con_free(ctx, e->receiver);
}

static void row(uint32_t mode, int etype, size_t len, double seconds)
{
    struct ends e = ends_of(mode, etype, len);
    struct best b = { 1e9, 1e9, 1e9, 1e9, 1e9, 1e9, 1e9 };
    double start = clock_at(CLOCK_MONOTONIC);
    while (clock_at(CLOCK_MONOTONIC) - start < seconds) {
        measure(&b.together, make_together, &e);
        measure(&b.made, make_ours, &e);
        measure(&b.read, read_ours, &e);
        measure(&b.in_place, read_in_place, &e);
        measure(&b.mit_made, make_mit, &e);
        measure(&b.mit_read, read_mit, &e);
        free_mit(&e);
        measure(&b.handles, make_handles, &e);
    }
    printf("%s %d %6zu  %9.0f %9.0f %9.0f %9.0f  %9.0f %9.0f  %5.2f %5.2f  %9.0f\n",
           mode == KRBRELAY_SAFE ? "safe" : "priv", etype, len, BATCH / b.together, BATCH / b.made,
           BATCH / b.read, BATCH / b.in_place, BATCH / b.mit_made, BATCH / b.mit_read, b.mit_made / b.made,
           b.mit_read / b.read, BATCH / b.handles);
    fflush(stdout);
    end_all(&e);
}

int main(int argc, char **argv)
{
    static const size_t lengths[] = { 64, 1024, LONGEST };
    double seconds = argc > 1 ? atof(argv[1]) : 0.3;
    setenv("KRB5_CONFIG", "/dev/null", 1);
    must(krb5_init_context(&ctx), "init_context");
    memset(text, 0x5a, sizeof text);
    for (int i = 0; i < 32; i++)
        key[i] = (uint8_t)i;
    puts("Messages a second of one thread: ours, MIT's, and ours over MIT's.");
    puts("mode ty  bytes   together      made      read  in place   MIT made  MIT read   made  read  new+free");
    for (uint32_t mode = KRBRELAY_SAFE; mode <= KRBRELAY_PRIV; mode++)
        for (int etype = 17; etype <= 18; etype++)
            for (int i = 0; i < 3; i++)
                row(mode, etype, lengths[i], seconds);
    krb5_free_context(ctx);
    return 0;
}
