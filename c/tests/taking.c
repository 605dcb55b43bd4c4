/* Frames taken in one call, beside a call for each: the same answers, kinds, sizes, numbers and bytes, and the
 * same receiver then. Of an independent sealer's frames the answers are known; other lists are drawn. Each
 * allocation is refused too. Linked with -Wl,--wrap=malloc -Wl,--wrap=realloc. */
#include "check.h"
#include "draw.h"
#include "frames.h"
#include "krbrelay.h"
#include "session.h"

#include <stdlib.h>
#include <string.h>

enum { MOST = KRBRELAY_MOST_FRAMES, ROOM = 1 << 18, SLOT = 2048, LONGEST = 1005000, FILL = 0xee };

static const struct krbrelay_moment now = { SECS, USEC, 0 };
static const uint8_t zeros[16];
static uint8_t some_data[LONGEST];

/* ---- an allocator that refuses */

void *__real_malloc(size_t size);
void *__wrap_malloc(size_t size);
void *__real_realloc(void *block, size_t size);
void *__wrap_realloc(void *block, size_t size);

static long before_refusal = -1, asked;
static int refuses_all_after;

static int is_refused(void)
{
    asked++;
    if (before_refusal < 0 || before_refusal-- > 0)
        return 0;
    before_refusal = refuses_all_after ? 0 : -1;
    return 1;
}

void *__wrap_malloc(size_t size) { return is_refused() ? NULL : __real_malloc(size); }

void *__wrap_realloc(void *block, size_t size) { return is_refused() ? NULL : __real_realloc(block, size); }

static void refuse(long before, int and_all_after)
{
    before_refusal = before;
    refuses_all_after = and_all_after;
}

/* ---- lists of frames, and what taking them leaves */

struct list { size_t count; struct krbrelay_frame frames[MOST + 1]; };

struct left {
    struct krbrelay_taken taken[MOST];
    uint8_t bytes[ROOM];
    uint64_t expected;
    uint32_t closed;
};

static void put(struct list *to, const uint8_t *bytes, size_t len)
{
    to->frames[to->count++] = (struct krbrelay_frame){ bytes, len };
}

static const uint8_t *key_of(int etype) { return keys[etype - 17]; }

static struct krbrelay_receiver receiver_at(int etype, uint32_t mode, uint64_t number)
{
    struct krbrelay_expect expect = expect_of(mode);
    struct krbrelay_receiver r = KRBRELAY_INIT;
    IS(krbrelay_receiver_new(&r, etype, key_of(etype), key_size(etype), &expect, number, 0));
    return r;
}

/* Takes one frame with the room that is left, and answers how many bytes it wrote. */
static size_t take_one(struct krbrelay_receiver *r, const struct krbrelay_frame *f, size_t from, size_t room,
                       struct krbrelay_taken *taken, struct left *to)
{
    taken->answer = krbrelay_receiver_take_numbered(r, f->bytes, f->bytes_len, &now, &taken->kind, to->bytes + from,
                                                    room - from, &taken->size, &taken->number);
    return taken->answer == KRBRELAY_OK ? taken->size : 0;
}

static void tell_state(struct krbrelay_receiver *r, struct left *to)
{
    CHECK(krbrelay_receiver_state(r, &to->expected, &to->closed) == KRBRELAY_OK);
}

static void take_singly(struct krbrelay_receiver *r, const struct list *l, size_t room, struct left *to)
{
    size_t from = 0;
    memset(to, FILL, sizeof *to);
    for (size_t i = 0; i < l->count; i++)
        from += take_one(r, &l->frames[i], from, room, &to->taken[i], to);
    tell_state(r, to);
}

static void take_together(struct krbrelay_receiver *r, const struct list *l, size_t room, struct left *to)
{
    memset(to, FILL, sizeof *to);
    IS(krbrelay_receiver_take_many(r, l->frames, l->count, &now, to->bytes, room, to->taken));
    tell_state(r, to);
}

/* Both leave the same. Answers how many bytes the records take. */
static size_t both_ways(int etype, uint32_t mode, uint64_t number, const struct list *l, size_t room)
{
    static struct left one, other;
    struct krbrelay_receiver r = receiver_at(etype, mode, number), s = receiver_at(etype, mode, number);
    size_t used = 0;
    take_singly(&r, l, room, &one);
    take_together(&s, l, room, &other);
    CHECK(memcmp(&one, &other, sizeof one) == 0);
    for (size_t i = 0; i < l->count; i++)
        used += one.taken[i].answer == KRBRELAY_OK ? one.taken[i].size : 0;
    krbrelay_receiver_free(&r);
    krbrelay_receiver_free(&s);
    return used;
}

/* ---- frames of an independent sealer: the text "hi" at number 7 */

struct known { const uint8_t *frame; size_t len; enum krbrelay_answer answer; uint64_t number; };

static void is_told(const struct krbrelay_taken *taken, const struct known *row)
{
    int is_ok = row->answer == KRBRELAY_OK;
    CHECK(taken->answer == row->answer);
    CHECK(taken->number == (row->number ? row->number : UINT64_C(0xeeeeeeeeeeeeeeee)));
    CHECK(taken->kind == (is_ok ? KRBRELAY_TEXT : 0xeeeeeeeeu));
    CHECK(taken->size == (is_ok ? 2 : (size_t)UINT64_C(0xeeeeeeeeeeeeeeee)));
}

/* The rows, of which the first ones stand there so many times: the frame that is accepted has each place among
 * eight, and the list is taken side by side or singly. */
static void are_known(int etype, uint32_t mode, const struct known *rows, size_t count, size_t firsts, size_t times)
{
    static struct left to;
    const struct known *all[MOST];
    struct list l = { 0 };
    struct krbrelay_receiver r = receiver_at(etype, mode, 7);
    for (size_t i = 0; i < firsts * times + count - firsts; i++) {
        all[i] = i < firsts * times ? &rows[i % firsts] : &rows[i - firsts * times + firsts];
        put(&l, all[i]->frame, all[i]->len);
    }
    take_together(&r, &l, ROOM, &to);
    CHECK(to.expected == 8 && to.closed == 0 && memcmp(to.bytes, "hi", 2) == 0 && to.bytes[2] == FILL);
    for (size_t i = 0; i < l.count; i++)
        is_told(&to.taken[i], all[i]);
    CHECK(both_ways(etype, mode, 7, &l, ROOM) == 2);
    krbrelay_receiver_free(&r);
}

static void at_each_place(int etype, uint32_t mode, const struct known *rows, size_t count, size_t firsts)
{
    for (size_t times = 0; firsts * times + count - firsts <= MOST; times++)
        are_known(etype, mode, rows, count, firsts, times);
}

static void independent_safe(int etype)
{
    const uint8_t *good = etype == 17 ? safe_17 : safe_18, *other = etype == 17 ? safe_18 : safe_17;
    const uint8_t *private = etype == 17 ? priv_17 : priv_18;
    uint8_t changed[sizeof safe_17];
    size_t len = sizeof changed;
    struct known rows[] = {
        { changed, len, KRBRELAY_MODIFIED, 0 }, { private, sizeof priv_17, KRBRELAY_MSG_TYPE, 0 },
        { other, len, KRBRELAY_INAPP_CKSUM, 0 }, { good, len - 1, KRBRELAY_MALFORMED, 0 },
        { changed, len, KRBRELAY_MODIFIED, 0 }, { good, len, KRBRELAY_OK, 7 },
        { good, len, KRBRELAY_BADORDER, 7 }, { NULL, 0, KRBRELAY_MALFORMED, 0 },
        { changed, len, KRBRELAY_BADORDER, UINT64_MAX }, { good, len, KRBRELAY_BADORDER, 7 },
        { good, 0, KRBRELAY_MALFORMED, 0 },
    };
    memcpy(changed, good, len);
    changed[len - 1] ^= 1;
    at_each_place(etype, KRBRELAY_SAFE, rows, sizeof rows / sizeof *rows, 5);
    at_each_place(etype, KRBRELAY_SAFE, rows + 4, 6, 1);
}

static void independent_priv(int etype)
{
    const uint8_t *good = etype == 17 ? priv_17 : priv_18, *other = etype == 17 ? priv_18 : priv_17;
    const uint8_t *safe = etype == 17 ? safe_17 : safe_18;
    uint8_t changed[sizeof priv_17];
    size_t len = sizeof changed;
    struct known rows[] = {
        { changed, len, KRBRELAY_BAD_INTEGRITY, 0 }, { safe, sizeof safe_17, KRBRELAY_MSG_TYPE, 0 },
        { other, len, KRBRELAY_ETYPE_NOSUPP, 0 }, { good, len - 1, KRBRELAY_MALFORMED, 0 },
        { changed, len, KRBRELAY_BAD_INTEGRITY, 0 }, { good, len, KRBRELAY_OK, 7 },
        { good, len, KRBRELAY_BADORDER, 7 }, { NULL, 0, KRBRELAY_MALFORMED, 0 },
        { changed, len, KRBRELAY_BAD_INTEGRITY, 0 }, { good, len, KRBRELAY_BADORDER, 7 },
        { good, 0, KRBRELAY_MALFORMED, 0 },
    };
    memcpy(changed, good, len);
    changed[40] ^= 1;
    at_each_place(etype, KRBRELAY_PRIV, rows, sizeof rows / sizeof *rows, 5);
    at_each_place(etype, KRBRELAY_PRIV, rows + 4, 6, 1);
}

/* ---- drawn lists */

/* A sealer, and what it sealed: frames[i] at number 7 + i. The last one is a close if it has one. */
struct sealed { size_t count, sizes[MOST]; uint8_t frames[MOST][SLOT]; };

static struct krbrelay_sealer sealer_of(int etype, const uint8_t *key, uint32_t mode)
{
    struct krbrelay_session session = session_of(mode, 7);
    struct krbrelay_sealer s = KRBRELAY_INIT;
    CHECK(krbrelay_sealer_new(&s, etype, key, key_size(etype), &session) == KRBRELAY_OK);
    return s;
}

/* One more frame: a text, a batch, a close or what is no record. */
static void seal_next(struct krbrelay_sealer *s, struct sealed *to, uint32_t kind, size_t len)
{
    static uint8_t batch[SLOT];
    size_t size = 0, i = to->count++;
    if (kind == KRBRELAY_BATCH)
        for (int texts = 0; texts < 3; texts++)
            CHECK(krbrelay_batch_add(batch, sizeof batch, &size, some_data + i, len / 3) == KRBRELAY_OK);
    if (kind == 0)
        CHECK(krbrelay_sealer_seal(s, some_data, len, &now, zeros, to->frames[i], SLOT, &to->sizes[i]) == KRBRELAY_OK);
    else
        CHECK(krbrelay_sealer_seal_record(s, kind, kind == KRBRELAY_BATCH ? batch : some_data + i,
                                          kind == KRBRELAY_BATCH ? size : kind == KRBRELAY_CLOSE ? 0 : len, &now,
                                          zeros, to->frames[i], SLOT, &to->sizes[i]) == KRBRELAY_OK);
}

static void seal_all(struct sealed *to, int etype, const uint8_t *key, uint32_t mode, int draws_kinds)
{
    struct krbrelay_sealer s = sealer_of(etype, key, mode);
    to->count = 0;
    while (to->count < MOST) {
        uint64_t kind = draws_kinds ? below(40) : 39;
        seal_next(&s, to, kind == 0 ? KRBRELAY_CLOSE : kind == 1 ? 0 : kind < 8 ? KRBRELAY_BATCH : KRBRELAY_TEXT,
                  (size_t)below(below(3) == 0 ? 1500 : 400));
    }
    krbrelay_sealer_free(&s);
}

static struct sealed right, others[3];
static uint8_t changed[MOST][SLOT];

/* Frame i of the list: mostly the next one of the session, else a wrong one. */
static void put_drawn(struct list *l, size_t *next)
{
    size_t i = *next < MOST ? *next : MOST - 1, any = (size_t)below(MOST), place = l->count;
    const struct sealed *other = &others[below(3)];
    switch (below(16)) {
    case 0: put(l, right.frames[any], right.sizes[any]); break;
    case 1: put(l, other->frames[i], other->sizes[i]); break;
    case 2: put(l, right.frames[i], (size_t)below(right.sizes[i] + 1)); break;
    case 3: put(l, NULL, 0); break;
    case 4: case 5:
        memcpy(changed[place], right.frames[i], right.sizes[i]);
        changed[place][below(right.sizes[i])] ^= (uint8_t)(1 << below(8));
        put(l, changed[place], right.sizes[i]);
        break;
    default:
        put(l, right.frames[i], right.sizes[i]);
        (*next)++;
    }
}

static struct list drawn(void)
{
    static const size_t counts[] = { 1, 7, 8, 9, 15, 16, 17, 63, 64 };
    struct list l = { 0 };
    size_t next = 0, count = below(3) ? counts[below(9)] : (size_t)below(MOST + 1);
    while (l.count < count)
        put_drawn(&l, &next);
    return l;
}

static void seal_others(int etype, uint32_t mode)
{
    seal_all(&right, etype, key_of(etype), mode, 1);
    seal_all(&others[0], 35 - etype, key_of(35 - etype), mode, 0);
    seal_all(&others[1], etype, key_of(etype), KRBRELAY_SAFE + KRBRELAY_PRIV - mode, 0);
    seal_all(&others[2], etype, keys[2], mode, 0);
}

/* With room for all, for all but a byte, and for what is drawn. */
static void drawn_lists(int etype, uint32_t mode)
{
    state = 1 + (uint64_t)etype * 4 + mode;
    for (int round = 0; round < 20; round++) {
        seal_others(etype, mode);
        for (int k = 0; k < 5; k++) {
            struct list l = drawn();
            size_t used = both_ways(etype, mode, 7, &l, ROOM);
            both_ways(etype, mode, 7, &l, used);
            both_ways(etype, mode, 7, &l, used ? used - 1 : 0);
            both_ways(etype, mode, 7, &l, (size_t)below(used + 1));
        }
    }
}

/* ---- refused allocations */

/* Replays what a call told: a frame that has MEMORY is one for which a call of its own asks for memory,
 * and of each other one a call of its own tells the same. */
static void is_replayed(int etype, uint32_t mode, const struct list *l, const struct left *told)
{
    static struct left one;
    struct krbrelay_receiver r = receiver_at(etype, mode, 7);
    size_t from = 0;
    memset(&one, FILL, sizeof one);
    for (size_t i = 0; i < l->count; i++) {
        int is_memory = told->taken[i].answer == KRBRELAY_MEMORY;
        refuse(is_memory ? 0 : -1, 1);
        from += take_one(&r, &l->frames[i], from, ROOM, &one.taken[i], &one);
        refuse(-1, 0);
    }
    tell_state(&r, &one);
    CHECK(memcmp(&one, told, sizeof one) == 0);
    krbrelay_receiver_free(&r);
}

static void refused_at(int etype, uint32_t mode, const struct list *l, long at, int and_all_after)
{
    static struct left told;
    struct krbrelay_receiver r = receiver_at(etype, mode, 7);
    memset(&told, FILL, sizeof told);
    refuse(at, and_all_after);
    IS(krbrelay_receiver_take_many(&r, l->frames, l->count, &now, told.bytes, ROOM, told.taken));
    refuse(-1, 0);
    tell_state(&r, &told);
    is_replayed(etype, mode, l, &told);
    krbrelay_receiver_free(&r);
}

/* How many allocations a call asks for that takes this list. */
static long asked_for(int etype, uint32_t mode, const struct list *l)
{
    static struct left told;
    struct krbrelay_receiver r = receiver_at(etype, mode, 7);
    long before = asked;
    take_together(&r, l, ROOM, &told);
    krbrelay_receiver_free(&r);
    return asked - before;
}

static void refused_memory(int etype, uint32_t mode)
{
    state = 100 + (uint64_t)etype * 4 + mode;
    for (int round = 0; round < 4; round++) {
        struct list l;
        long count;
        seal_others(etype, mode);
        l = drawn();
        count = asked_for(etype, mode, &l);
        CHECK(l.count < 16 || count > 8);
        for (long at = 0; at < count; at++) {
            refused_at(etype, mode, &l, at, 0);
            refused_at(etype, mode, &l, at, 1);
        }
    }
}

/* ---- the longest frames */

static void longest_frames(int etype, uint32_t mode)
{
    static uint8_t frames[9][LONGEST + 1], bytes[3000000];
    struct krbrelay_sealer s = sealer_of(etype, key_of(etype), mode);
    struct krbrelay_receiver r = receiver_at(etype, mode, 7);
    struct krbrelay_frame all[9];
    struct krbrelay_taken taken[MOST];
    for (size_t i = 0; i < 9; i++) {
        all[i].bytes = frames[i];
        CHECK(krbrelay_sealer_seal_record(&s, KRBRELAY_TEXT, some_data + i, 1000000 - i, &now, zeros, frames[i],
                                          LONGEST, &all[i].bytes_len) == KRBRELAY_OK);
    }
    all[1].bytes_len = LONGEST + 1;
    CHECK(krbrelay_receiver_take_many(&r, all, 9, &now, bytes, sizeof bytes, taken) == KRBRELAY_OK);
    CHECK(taken[0].answer == KRBRELAY_OK && taken[0].size == 1000000 && memcmp(bytes, some_data, 1000000) == 0);
    CHECK(taken[1].answer == KRBRELAY_FIELD_TOOLONG);
    for (size_t i = 2; i < 9; i++)
        CHECK(taken[i].answer == KRBRELAY_BADORDER && taken[i].number == 7 + i);
    krbrelay_receiver_free(&r);
    krbrelay_sealer_free(&s);
}

/* ---- what is answered of no frame */

static void is_answered(struct krbrelay_receiver *r, size_t count, struct krbrelay_moment at,
                        enum krbrelay_answer answer)
{
    static struct left to, before;
    struct list l = { 0 };
    while (l.count < MOST + 1)
        put(&l, safe_17, sizeof safe_17);
    memset(&to, FILL, sizeof to);
    memset(&before, FILL, sizeof before);
    CHECK(krbrelay_receiver_take_many(r, l.frames, count, &at, to.bytes, ROOM, to.taken) == answer);
    CHECK(memcmp(&to, &before, sizeof to) == 0);
}

static void answers_of_no_frame(void)
{
    struct krbrelay_receiver r = receiver_at(17, KRBRELAY_SAFE, 7), empty = KRBRELAY_INIT;
    struct krbrelay_moment late = { SECS, 1000000, 0 }, reserved = { SECS, 1000000, 1 };
    struct left none;
    is_answered(&empty, MOST + 1, reserved, KRBRELAY_ARGUMENT);
    is_answered(&r, MOST + 1, now, KRBRELAY_ARGUMENT);
    is_answered(&empty, MOST, reserved, KRBRELAY_EMPTY);
    is_answered(&empty, 0, now, KRBRELAY_EMPTY);
    is_answered(&r, MOST, reserved, KRBRELAY_ARGUMENT);
    is_answered(&r, MOST, late, KRBRELAY_MOMENT);
    is_answered(&r, 0, late, KRBRELAY_MOMENT);
    is_answered(&r, 0, now, KRBRELAY_OK);
    CHECK(krbrelay_receiver_take_many(&r, NULL, 0, &now, NULL, 0, none.taken) == KRBRELAY_OK);
    tell_state(&r, &none);
    CHECK(none.expected == 7 && none.closed == 0 && krbrelay_receiver_is_empty(&empty));
    krbrelay_receiver_free(&r);
}

/* Room that a record lacks is of its frame alone: a shorter one after it has room. */
static void room_of_each(void)
{
    static struct left to;
    struct list l = { 0 };
    struct krbrelay_receiver r = receiver_at(17, KRBRELAY_SAFE, 7);
    for (int i = 0; i < 8; i++)
        put(&l, safe_17, sizeof safe_17);
    take_together(&r, &l, 1, &to);
    for (int i = 0; i < 8; i++)
        CHECK(to.taken[i].answer == KRBRELAY_ROOM);
    CHECK(to.expected == 7 && to.bytes[0] == FILL);
    take_together(&r, &l, 2, &to);
    CHECK(to.taken[0].answer == KRBRELAY_OK && memcmp(to.bytes, "hi", 2) == 0 && to.bytes[2] == FILL);
    for (int i = 1; i < 8; i++)
        CHECK(to.taken[i].answer == KRBRELAY_BADORDER && to.taken[i].number == 7);
    CHECK(to.expected == 8);
    krbrelay_receiver_free(&r);
}

int main(int count, char **words)
{
    check_only(1, count, words);
    for (size_t i = 0; i < sizeof some_data; i++)
        some_data[i] = (uint8_t)(i * 11 + i / 256);
    for (int etype = 17; etype <= 18; etype++) {
        RUN(independent_safe(etype));
        RUN(independent_priv(etype));
        for (uint32_t mode = KRBRELAY_SAFE; mode <= KRBRELAY_PRIV; mode++) {
            RUN(drawn_lists(etype, mode));
            RUN(refused_memory(etype, mode));
            RUN(longest_frames(etype, mode));
        }
    }
    RUN(answers_of_no_frame());
    RUN(room_of_each());
    return check_status("taking");
}
