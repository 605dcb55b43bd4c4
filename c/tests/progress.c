/* krbrelay_progress_* in random sequences of events beside a model, and at numbers up to 2^64. The
 * model is written from the definitions of crates/krb_carry/specs/Progress.antt, over other values: the
 * list of the offsets that count, instead of two numbers, and sums that don't wrap.
 *
 *     progress [SEQUENCES] [SEED] */
#include "check.h"
#include "draw.h"
#include "krbrelay.h"

#include <stdlib.h>
#include <string.h>

enum { EVENTS = 300, MOST = 2000 };

typedef unsigned __int128 wide;

static int is_same(const struct krbrelay_progress *one, const struct krbrelay_progress *other)
{
    return one->next == other->next && one->carried == other->carried && one->at == other->at
        && one->sent == other->sent;
}

/* ---- the model: a session whose frames begin at a number */

struct model {
    uint64_t first;             /* the number of the first frame that the model knows */
    uint64_t begin;             /* its place is after this offset */
    size_t stored, published;   /* so many frames, from the first one on */
    uint64_t counted[MOST];     /* the offsets of the copies that count, of one frame after another */
    size_t count;
};

static uint64_t last_offset(const struct model *m)
{
    return m->count == 0 ? m->begin : m->counted[m->count - 1];
}

static struct krbrelay_progress told(const struct model *m)
{
    struct krbrelay_progress p = { .next = m->first + m->stored, .carried = m->first + m->count,
                                   .at = last_offset(m), .sent = m->first + m->published };
    return p;
}

/* A copy counts if it is of the first frame that doesn't count, which is stored, and stands after the
 * one that counts of the frame before. */
static int model_confirm(struct model *m, uint64_t number, uint64_t offset)
{
    if (number != m->first + m->count || m->count == m->stored || offset <= last_offset(m))
        return 0;
    m->counted[m->count++] = offset;
    if (m->published < m->count)
        m->published = m->count;
    return 1;
}

static size_t model_rewind(struct model *m)
{
    size_t again = m->published - m->count;
    m->published = m->count;
    return again;
}

/* ---- one event, on both */

static void store(struct model *m, struct krbrelay_progress *p)
{
    size_t count = (size_t)below(4);
    if (m->stored + count > MOST)
        return;
    m->stored += count;
    CHECK(krbrelay_progress_store(p, count) == KRBRELAY_OK);
}

static void publish(struct model *m, struct krbrelay_progress *p)
{
    size_t count = (size_t)below(5);
    struct krbrelay_progress before = *p;
    if (m->published + count > m->stored) {
        CHECK(krbrelay_progress_publish(p, count) == KRBRELAY_ARGUMENT && is_same(p, &before));
        return;
    }
    m->published += count;
    CHECK(krbrelay_progress_publish(p, count) == KRBRELAY_OK);
}

/* Mostly of a frame near the first one that doesn't count, and of an offset near the last. */
static void confirm(struct model *m, struct krbrelay_progress *p)
{
    uint64_t number = m->first + m->count + below(3) - (m->first + m->count > 0 ? below(2) : 0);
    uint64_t offset = last_offset(m) + below(4);
    uint32_t counts = 9;
    int does;
    if (below(8) == 0)
        offset = below(1 + last_offset(m));
    does = model_confirm(m, number, offset);
    CHECK(krbrelay_progress_confirm(p, number, offset, &counts) == KRBRELAY_OK);
    CHECK(counts == (uint32_t)does);
}

static void rewind_all(struct model *m, struct krbrelay_progress *p)
{
    uint64_t again = 99999;
    size_t wanted = model_rewind(m);
    CHECK(krbrelay_progress_rewind(p, &again) == KRBRELAY_OK && again == wanted);
}

/* A sender that is started again goes on where so much was stored, and so does the model. */
static void restart(struct model *m, struct krbrelay_progress *p)
{
    struct krbrelay_progress stored = *p;
    m->published = m->count;
    memset(p, 0xee, sizeof *p);
    CHECK(krbrelay_progress_new(p, stored.next, stored.carried, stored.at) == KRBRELAY_OK);
}

static void step(struct model *m, struct krbrelay_progress *p)
{
    struct krbrelay_progress wanted;
    switch (below(12)) {
    case 0: case 1: store(m, p); break;
    case 2: case 3: case 4: publish(m, p); break;
    case 5: rewind_all(m, p); break;
    case 6: restart(m, p); break;
    default: confirm(m, p); break;
    }
    wanted = told(m);
    CHECK(is_same(p, &wanted));
}

/* From a number and an offset of any size on: those of the last frames too. */
static void sequence(void)
{
    static struct model m;
    struct krbrelay_progress p;
    memset(&m, 0, sizeof m);
    memset(&p, 0xee, sizeof p);
    m.first = below(3) == 0 ? UINT64_MAX - MOST - below(9) : below(100);
    m.begin = below(3) == 0 ? UINT64_MAX - 4 * EVENTS - below(9) : below(100);
    m.stored = (size_t)below(3);
    CHECK(krbrelay_progress_new(&p, m.first + m.stored, m.first, m.begin) == KRBRELAY_OK);
    for (int i = 0; i < EVENTS; i++)
        step(&m, &p);
}

/* ---- a carrier that loses, repeats and reorders what is published */

enum { FRAMES = 60 };

struct shard {
    uint64_t frame_at[100000];  /* the frame whose copy stands at each offset from 1 on */
    uint64_t length;
    uint64_t counted[FRAMES];   /* the offset that counted of each frame */
};

/* Publishes what wasn't: each frame is kept, kept twice, or lost. */
static void publish_to(struct shard *shard, struct krbrelay_progress *p)
{
    while (p->sent < p->next) {
        for (uint64_t copies = below(3); copies > 0; copies--)
            shard->frame_at[++shard->length] = p->sent;
        CHECK(krbrelay_progress_publish(p, 1) == KRBRELAY_OK);
    }
}

/* True confirmations of any copies, in any order. */
static void confirm_some(struct shard *shard, struct krbrelay_progress *p)
{
    for (uint64_t i = below(40); i > 0 && shard->length > 0; i--) {
        uint64_t offset = 1 + below(shard->length), number = shard->frame_at[offset];
        uint32_t counts = 9;
        CHECK(krbrelay_progress_confirm(p, number, offset, &counts) == KRBRELAY_OK);
        if (counts == 1)
            shard->counted[number] = offset;
    }
}

/* All frames come to be carried, and the counted copies stand one after the other. */
static void carriage(void)
{
    static struct shard shard;
    struct krbrelay_progress p;
    uint64_t again = 0;
    memset(&shard, 0, sizeof shard);
    CHECK(krbrelay_progress_new(&p, 0, 0, 0) == KRBRELAY_OK);
    CHECK(krbrelay_progress_store(&p, FRAMES) == KRBRELAY_OK);
    while (p.carried < p.next && shard.length + 2 * FRAMES < 100000) {
        publish_to(&shard, &p);
        confirm_some(&shard, &p);
        CHECK(krbrelay_progress_rewind(&p, &again) == KRBRELAY_OK);
    }
    CHECK(p.carried == FRAMES && p.at == shard.counted[FRAMES - 1]);
    for (uint64_t i = 0; i < FRAMES; i++)
        CHECK(shard.frame_at[shard.counted[i]] == i && shard.counted[i] > 0
              && (i == 0 || shard.counted[i - 1] < shard.counted[i]));
}

/* ---- any four numbers, and any arguments */

static uint64_t any_number(void)
{
    static const uint64_t edges[] = { 0, 1, 2, UINT64_C(1) << 32, UINT64_C(1) << 63, UINT64_MAX - 1,
                                      UINT64_MAX };
    uint64_t edge = edges[below(sizeof edges / sizeof edges[0])];
    return below(4) == 0 ? below(UINT64_MAX) : edge;
}

static int is_progress(const struct krbrelay_progress *p)
{
    return (wide)p->carried <= (wide)p->sent && (wide)p->sent <= (wide)p->next;
}

static struct krbrelay_progress any_progress(void)
{
    struct krbrelay_progress p = { .next = any_number(), .carried = any_number(), .at = any_number(),
                                   .sent = any_number() };
    if (below(2) == 0 && p.sent > p.next)
        p.sent = p.next;
    if (below(2) == 0 && p.carried > p.sent)
        p.carried = p.sent;
    return p;
}

static void answered(enum krbrelay_answer answer, int fits, const struct krbrelay_progress *p,
                     struct krbrelay_progress wanted, const struct krbrelay_progress *before)
{
    CHECK(answer == (fits ? KRBRELAY_OK : KRBRELAY_ARGUMENT));
    CHECK(is_same(p, fits ? &wanted : before));
}

static void counts_of_any(void)
{
    struct krbrelay_progress before = any_progress(), p = before, wanted = before;
    uint64_t count = any_number();
    int fits = is_progress(&before) && (wide)before.next + count < (wide)1 << 64;
    wanted.next = before.next + count;
    answered(krbrelay_progress_store(&p, count), fits, &p, wanted, &before);
    p = wanted = before;
    wanted.sent = before.sent + count;
    fits = is_progress(&before) && (wide)before.sent + count <= before.next;
    answered(krbrelay_progress_publish(&p, count), fits, &p, wanted, &before);
}

static void news_of_any(void)
{
    struct krbrelay_progress before = any_progress(), p = before;
    uint64_t next = any_number(), carried = any_number(), at = any_number();
    struct krbrelay_progress wanted = { .next = next, .carried = carried, .at = at, .sent = carried };
    answered(krbrelay_progress_new(&p, next, carried, at), carried <= next, &p, wanted, &before);
}

static void confirmation_of_any(void)
{
    struct krbrelay_progress before = any_progress(), p = before, wanted = before;
    uint64_t number = below(2) == 0 ? before.carried : any_number(), offset = any_number();
    uint32_t counts = 9;
    int is = is_progress(&before);
    int does = number == before.carried && before.carried < before.next && before.at < offset;
    if (does) {
        wanted.carried = before.carried + 1;
        wanted.at = offset;
        wanted.sent = before.sent > before.carried ? before.sent : before.carried + 1;
    }
    answered(krbrelay_progress_confirm(&p, number, offset, &counts), is, &p, wanted, &before);
    CHECK(counts == (uint32_t)(is ? does : 9));
}

static void rewind_of_any(void)
{
    struct krbrelay_progress before = any_progress(), p = before, wanted = before;
    uint64_t again = 9;
    int is = is_progress(&before);
    wanted.sent = before.carried;
    answered(krbrelay_progress_rewind(&p, &again), is, &p, wanted, &before);
    CHECK(again == (is ? before.sent - before.carried : 9));
}

int main(int argc, char **argv)
{
    uint64_t sequences = argc > 1 ? strtoull(argv[1], NULL, 10) : 1000;
    check_only(3, argc, argv);
    state = argc > 2 ? strtoull(argv[2], NULL, 10) : 66;
    for (uint64_t i = 0; i < sequences; i++) {
        RUN(sequence());
        for (int j = 0; j < 100; j++) {
            RUN(news_of_any());
            RUN(counts_of_any());
            RUN(confirmation_of_any());
            RUN(rewind_of_any());
        }
    }
    for (uint64_t i = 0; i < sequences / 20; i++)
        RUN(carriage());
    return check_status("progress");
}
