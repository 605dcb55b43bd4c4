/* Each call in both modes and types, against the frames of an independent sealer; and each answer
 * that krbrelay.h names, in a case of its own. */
#include "check.h"
#include "frames.h"
#include "krbrelay.h"
#include "session.h"

#include <stdlib.h>
#include <string.h>

_Static_assert(sizeof(struct krbrelay_address) == 48, "an address has no padding");
_Static_assert(sizeof(struct krbrelay_header) == 32, "a header has no padding");
_Static_assert(sizeof(struct krbrelay_moment) == 16, "a moment has no padding");
_Static_assert(sizeof(struct krbrelay_session) == 128, "a session has no padding");
_Static_assert(sizeof(struct krbrelay_expect) == 128, "an expectation has no padding");
_Static_assert(sizeof(struct krbrelay_demand) == 144, "a demand has no padding");
_Static_assert(sizeof(struct krbrelay_carried) == 152, "what is carried has no padding");
_Static_assert(sizeof(struct krbrelay_unsealed) == 48, "what is sealed has no padding");
_Static_assert(sizeof(struct krbrelay_window) == 16, "a window has no padding");

static uint8_t frame[KRBRELAY_FRAME_LIMIT + 1], text[KRBRELAY_FRAME_LIMIT];
static const uint8_t zeros[16];

static const uint8_t *key_of(int etype) { return keys[etype - 17]; }

static uint32_t new_sealer(struct krbrelay_sealer *s, int etype, uint32_t mode, uint32_t first)
{
    struct krbrelay_session session = session_of(mode, first);
    return krbrelay_sealer_new(s, etype, key_of(etype), key_size(etype), &session);
}

static uint32_t new_opener(struct krbrelay_opener *o, int etype, uint32_t mode)
{
    struct krbrelay_expect expect = expect_of(mode);
    return krbrelay_opener_new(o, etype, key_of(etype), key_size(etype), &expect);
}

static uint32_t seal(struct krbrelay_sealer *s, const void *data, size_t len, size_t room, size_t *size)
{
    struct krbrelay_moment at = moment(SECS, USEC);
    return krbrelay_sealer_seal(s, data, len, &at, zeros, frame, room, size);
}

static uint32_t unseal(struct krbrelay_opener *o, const uint8_t *f, size_t len, uint64_t number)
{
    struct krbrelay_moment at = moment(SECS, USEC);
    size_t size = 99;
    uint32_t answer = krbrelay_opener_unseal(o, f, len, number, &at, text, sizeof text, &size);
    CHECK(answer == 0 || size == 99);
    return answer;
}

struct known { int etype; uint32_t mode; const uint8_t *frame; size_t len; };

static const struct known known_frames[] = {
    { 17, KRBRELAY_SAFE, safe_17, sizeof safe_17 }, { 18, KRBRELAY_SAFE, safe_18, sizeof safe_18 },
    { 17, KRBRELAY_PRIV, priv_17, sizeof priv_17 }, { 18, KRBRELAY_PRIV, priv_18, sizeof priv_18 },
};

/* What is sealed is the frame of another sealer, and that frame opens. */
static void frames_of_another_sealer(void)
{
    for (size_t i = 0; i < sizeof known_frames / sizeof known_frames[0]; i++) {
        const struct known *k = &known_frames[i];
        struct krbrelay_sealer s = { 0 };
        struct krbrelay_opener o = { 0 };
        struct krbrelay_moment at = moment(SECS, USEC);
        size_t size = 0;
        uint64_t next = 0;
        CHECK(new_sealer(&s, k->etype, k->mode, 7) == KRBRELAY_OK);
        CHECK(new_opener(&o, k->etype, k->mode) == KRBRELAY_OK);
        memset(frame, 0xee, sizeof frame);
        CHECK(krbrelay_sealer_frame_size(&s, 3, &at, &size) == KRBRELAY_OK && size == k->len);
        CHECK(seal(&s, "Dhi", 3, krbrelay_frame_size(3), &size) == KRBRELAY_OK);
        CHECK(size == k->len && memcmp(frame, k->frame, size) == 0);
        CHECK(frame[size] == 0xee && frame[krbrelay_frame_size(3) - 1] == 0xee);
        CHECK(krbrelay_sealer_next(&s, &next) == KRBRELAY_OK && next == 8);
        memset(text, 0xee, sizeof text);
        IS(krbrelay_opener_unseal(&o, k->frame, k->len, 7, &at, text, 3, &size));
        CHECK(size == 3 && memcmp(text, "Dhi\xee", 4) == 0);
        krbrelay_sealer_free(&s);
        krbrelay_opener_free(&o);
    }
}

/* Texts of each size come back, at their own numbers alone, into buffers as small as may be. */
static void round_trips(void)
{
    static uint8_t data[KRBRELAY_USER_DATA_LIMIT];
    static const size_t sizes[] = { 0, 1, 15, 16, 17, 100, 255, 256, 1024, 60000, 65535, 65536,
                                    1000000, 1000001 };
    for (size_t i = 0; i < sizeof data; i++)
        data[i] = (uint8_t)(i * 7);
    for (int etype = 17; etype <= 18; etype++)
        for (uint32_t mode = KRBRELAY_SAFE; mode <= KRBRELAY_PRIV; mode++)
            for (uint32_t told = 0; told < 2; told++) {
                struct krbrelay_session session = session_of(mode, UINT32_MAX - 14);
                struct krbrelay_expect expect = expect_of(mode);
                struct krbrelay_sealer s = { 0 };
                struct krbrelay_opener o = { 0 };
                struct krbrelay_moment later = moment(SECS + 1, USEC);
                expect.require_receiver = told;
                session.sender.len = expect.sender.len = expect.receiver.len = 40;
                if (told) {
                    tell_receiver(&session);
                    session.receiver.len = 40;
                }
                CHECK(krbrelay_sealer_new(&s, etype, key_of(etype), key_size(etype), &session) == 0);
                CHECK(krbrelay_opener_new(&o, etype, key_of(etype), key_size(etype), &expect) == 0);
                for (size_t i = 0; i < sizeof sizes / sizeof sizes[0]; i++) {
                    size_t n = sizes[i], size = 0, back = 0;
                    uint64_t number = 0;
                    CHECK(krbrelay_sealer_next(&s, &number) == KRBRELAY_OK);
                    CHECK(number == UINT32_MAX - 14 + i);
                    CHECK(seal(&s, data, n, krbrelay_frame_size(n), &size) == KRBRELAY_OK);
                    CHECK(size <= krbrelay_frame_size(n));
                    CHECK(krbrelay_opener_unseal(&o, frame, size, number, &later, text, n,
                                                 &back) == KRBRELAY_OK);
                    CHECK(back == n && memcmp(text, data, n) == 0);
                    CHECK(unseal(&o, frame, size, number + 1) == KRBRELAY_BADORDER);
                }
                krbrelay_sealer_free(&s);
                krbrelay_opener_free(&o);
            }
}

static void sizes_of_frames(void)
{
    CHECK(krbrelay_frame_size(0) == KRBRELAY_FRAME_SIZE(0));
    CHECK(krbrelay_frame_size(KRBRELAY_USER_DATA_LIMIT) == KRBRELAY_FRAME_SIZE(KRBRELAY_USER_DATA_LIMIT));
    CHECK(krbrelay_frame_size(KRBRELAY_USER_DATA_LIMIT) <= KRBRELAY_FRAME_LIMIT);
    CHECK(krbrelay_frame_size(SIZE_MAX) == KRBRELAY_FRAME_LIMIT);
}

/* The size that a sealer tells is that of what it then seals, into no more room: one case of each bit of `variant`, at
 * this number and with so many bytes of user data. */
static void size_before_sealing(unsigned variant, uint32_t number, size_t n)
{
    int etype = 17 + (int)(variant & 1);
    struct krbrelay_session session = session_of(KRBRELAY_SAFE + (variant >> 1 & 1), number);
    struct krbrelay_moment at = moment(SECS, variant >> 2 & 1 ? 999999 : 0);
    struct krbrelay_sealer s = { 0 };
    size_t told = 0, size = 1;
    if (variant >> 3 & 1)
        tell_receiver(&session);
    CHECK(krbrelay_sealer_new(&s, etype, key_of(etype), key_size(etype), &session) == KRBRELAY_OK);
    CHECK(krbrelay_sealer_frame_size(&s, n, &at, &told) == KRBRELAY_OK);
    CHECK(krbrelay_sealer_seal(&s, text, n, &at, zeros, frame, told - 1, &size) == KRBRELAY_ROOM);
    CHECK(krbrelay_sealer_seal(&s, text, n, &at, zeros, frame, told, &size) == KRBRELAY_OK);
    CHECK(told == size);
    krbrelay_sealer_free(&s);
}

static void sizes_before_sealing(void)
{
    static const uint32_t numbers[] = { 0, 127, 128, 0x80000000, UINT32_MAX };
    static const size_t sizes[] = { 0, 1, 127, 128, 255, 256, 65535, 65536,
                                    KRBRELAY_USER_DATA_LIMIT };
    for (size_t i = 0; i < sizeof sizes / sizeof sizes[0]; i++)
        for (size_t j = 0; j < sizeof numbers / sizeof numbers[0]; j++)
            for (unsigned variant = 0; variant < 16; variant++)
                size_before_sealing(variant, numbers[j], sizes[i]);
}

/* What a sealer answers that tells no size, and at its end. */
static void answers_of_a_size(void)
{
    struct krbrelay_sealer s = { 0 };
    struct krbrelay_moment at = moment(SECS, USEC), usec = moment(SECS, 1000000);
    struct krbrelay_moment year = moment(253402300800, 0);
    size_t told = 99, size = 0;
    uint64_t next = 0;
    CHECK(krbrelay_sealer_frame_size(&s, 3, &at, &told) == KRBRELAY_EMPTY);
    CHECK(new_sealer(&s, 17, KRBRELAY_PRIV, UINT32_MAX) == KRBRELAY_OK);
    CHECK(krbrelay_sealer_frame_size(&s, KRBRELAY_USER_DATA_LIMIT + 1, &at, &told)
          == KRBRELAY_TOO_LONG);
    CHECK(krbrelay_sealer_frame_size(&s, SIZE_MAX, &at, &told) == KRBRELAY_TOO_LONG);
    CHECK(krbrelay_sealer_frame_size(&s, 3, &usec, &told) == KRBRELAY_MOMENT);
    CHECK(krbrelay_sealer_frame_size(&s, 3, &year, &told) == KRBRELAY_MOMENT);
    CHECK(told == 99 && krbrelay_sealer_next(&s, &next) == KRBRELAY_OK && next == UINT32_MAX);
    CHECK(seal(&s, "Dhi", 3, krbrelay_frame_size(3), &size) == KRBRELAY_OK);
    CHECK(krbrelay_sealer_frame_size(&s, 3, &at, &told) == KRBRELAY_OK && told == size);
    krbrelay_sealer_wipe(&s);
    told = 99;
    CHECK(krbrelay_sealer_frame_size(&s, 3, &at, &told) == KRBRELAY_OK && told == size);
    krbrelay_sealer_free(&s);
}

/* A sealer's answers, each with nothing changed. */
static void answers_of_a_sealer(void)
{
    struct krbrelay_sealer s = { 0 };
    struct krbrelay_session session = session_of(KRBRELAY_PRIV, UINT32_MAX);
    struct krbrelay_moment usec = moment(SECS, 1000000), year = moment(253402300800, 0);
    size_t size = 99;
    uint64_t next = 99;
    CHECK(krbrelay_sealer_next(&s, &next) == KRBRELAY_EMPTY && next == 99);
    CHECK(seal(&s, "hi", 2, 1000, &size) == KRBRELAY_EMPTY && size == 99);
    CHECK(new_sealer(&s, 17, KRBRELAY_PRIV, UINT32_MAX) == KRBRELAY_OK);
    memset(frame, 0xee, sizeof frame);
    CHECK(seal(&s, "hi", 2, 8, &size) == KRBRELAY_ROOM);
    CHECK(seal(&s, text, 1000002, krbrelay_frame_size(1000002), &size) == KRBRELAY_TOO_LONG);
    CHECK(krbrelay_sealer_seal(&s, text, 2, &usec, zeros, frame, 1000, &size) == KRBRELAY_MOMENT);
    CHECK(krbrelay_sealer_seal(&s, text, 2, &year, zeros, frame, 1000, &size) == KRBRELAY_MOMENT);
    CHECK(krbrelay_sealer_next(&s, &next) == KRBRELAY_OK && next == UINT32_MAX);
    CHECK(size == 99 && frame[0] == 0xee);
    CHECK(seal(&s, "hi", 2, 1000, &size) == KRBRELAY_OK);
    CHECK(krbrelay_sealer_next(&s, &next) == KRBRELAY_OK && next == 4294967296);
    CHECK(seal(&s, "hi", 2, 1000, &size) == KRBRELAY_EXHAUSTED);
    krbrelay_sealer_wipe(&s);
    CHECK(seal(&s, "hi", 2, 1000, &size) == KRBRELAY_WIPED);
    CHECK(krbrelay_sealer_next(&s, &next) == KRBRELAY_OK && next == 4294967296);
    CHECK(krbrelay_sealer_new(&s, 17, keys[0], 16, &session) == KRBRELAY_OK);
    CHECK(seal(&s, "hi", 2, 1000, &size) == KRBRELAY_OK);
    krbrelay_sealer_free(&s);
    krbrelay_sealer_free(&s);
    krbrelay_sealer_wipe(&s);
    CHECK(s.at == NULL && s.count == 0);
}

/* So many messages of rising size, one moment and one confounder after another. */
static void make_messages(struct krbrelay_unsealed *messages, size_t count)
{
    for (size_t i = 0; i < count; i++) {
        messages[i] = (struct krbrelay_unsealed){ .user_data = text + i, .user_data_len = 37 * i,
                                                  .at = moment(SECS + i, (uint32_t)i) };
        memset(messages[i].confounder, (int)i, sizeof messages[i].confounder);
    }
}

/* Sealed in one call they are the frames of single calls, behind one another. */
static void several_messages(void)
{
    static uint8_t packed[64 * 3000];
    struct krbrelay_unsealed messages[64];
    size_t sizes[KRBRELAY_MOST_MESSAGES];
    for (size_t i = 0; i < 4096; i++)
        text[i] = (uint8_t)(i * 11);
    make_messages(messages, 64);
    for (unsigned variant = 0; variant < 4; variant++)
        for (size_t count = 0; count <= 64; count += count < 16 ? 1 : 16) {
            int etype = 17 + (int)(variant & 1);
            uint32_t mode = KRBRELAY_SAFE + (variant >> 1);
            struct krbrelay_sealer many = { 0 }, single = { 0 };
            size_t size = 0, place = 0, failed = 99;
            uint64_t next = 0;
            CHECK(new_sealer(&many, etype, mode, 7) == KRBRELAY_OK);
            CHECK(new_sealer(&single, etype, mode, 7) == KRBRELAY_OK);
            memset(sizes, 0xee, sizeof sizes);
            memset(packed, 0xee, sizeof packed);
            CHECK(krbrelay_sealer_seal_many(&many, messages, count, packed, sizeof packed, sizes,
                                            &failed) == KRBRELAY_OK);
            for (size_t i = 0; i < count; i++) {
                const struct krbrelay_unsealed *m = &messages[i];
                CHECK(krbrelay_sealer_seal(&single, m->user_data, m->user_data_len, &m->at,
                                           m->confounder, frame, sizeof frame, &size)
                      == KRBRELAY_OK);
                CHECK(sizes[i] == size && memcmp(packed + place, frame, size) == 0);
                place += size;
            }
            CHECK(failed == 99 && packed[place] == 0xee);
            CHECK(krbrelay_sealer_next(&many, &next) == KRBRELAY_OK && next == 7 + count);
            krbrelay_sealer_free(&many);
            krbrelay_sealer_free(&single);
        }
}

/* What sealing three messages answers, and which one is named; nothing is changed then. */
static enum krbrelay_answer seal_three(struct krbrelay_sealer *s, struct krbrelay_unsealed *messages,
                                       size_t room, size_t *failed)
{
    size_t sizes[KRBRELAY_MOST_MESSAGES] = { 99 };
    *failed = 99;
    memset(frame, 0xee, 100);
    enum krbrelay_answer answer = krbrelay_sealer_seal_many(s, messages, 3, frame, room, sizes, failed);
    CHECK(answer == KRBRELAY_OK || (sizes[0] == 99 && frame[0] == 0xee));
    return answer;
}

static void answers_of_several(void)
{
    struct krbrelay_unsealed messages[65];
    struct krbrelay_sealer s = { 0 };
    size_t sizes[KRBRELAY_MOST_MESSAGES], failed = 99;
    uint64_t next = 0;
    make_messages(messages, 65);
    CHECK(seal_three(&s, messages, sizeof frame, &failed) == KRBRELAY_EMPTY && failed == 99);
    CHECK(new_sealer(&s, 17, KRBRELAY_PRIV, UINT32_MAX - 1) == KRBRELAY_OK);
    CHECK(krbrelay_sealer_seal_many(&s, NULL, 0, NULL, 0, sizes, &failed) == KRBRELAY_OK
          && failed == 99);
    CHECK(krbrelay_sealer_seal_many(&s, messages, 65, frame, sizeof frame, sizes, &failed)
          == KRBRELAY_ARGUMENT && failed == 99);
    CHECK(seal_three(&s, messages, sizeof frame, &failed) == KRBRELAY_EXHAUSTED && failed == 2);
    messages[2].user_data_len = KRBRELAY_USER_DATA_LIMIT + 1;
    CHECK(seal_three(&s, messages, sizeof frame, &failed) == KRBRELAY_TOO_LONG && failed == 2);
    messages[1].at.microseconds = 1000000;
    CHECK(seal_three(&s, messages, sizeof frame, &failed) == KRBRELAY_MOMENT && failed == 1);
    messages[0].at.reserved = 1;
    CHECK(seal_three(&s, messages, sizeof frame, &failed) == KRBRELAY_ARGUMENT && failed == 0);
    CHECK(krbrelay_sealer_next(&s, &next) == KRBRELAY_OK && next == UINT32_MAX - 1);
    make_messages(messages, 3);
    CHECK(new_sealer(&s, 17, KRBRELAY_PRIV, 7) == KRBRELAY_OK);
    CHECK(seal_three(&s, messages, 100, &failed) == KRBRELAY_ROOM && failed == 99);
    krbrelay_sealer_wipe(&s);
    CHECK(seal_three(&s, messages, sizeof frame, &failed) == KRBRELAY_WIPED && failed == 0);
    krbrelay_sealer_free(&s);
}

/* Arguments out of their ranges; the handle holds nothing then. */
static void arguments(void)
{
    struct krbrelay_sealer s = { 0 };
    struct krbrelay_opener o = { 0 };
    struct krbrelay_session session = session_of(KRBRELAY_SAFE, 7);
    struct krbrelay_expect expect = expect_of(KRBRELAY_SAFE);
    uint64_t next;
    static const struct { int32_t etype; size_t len; } wrong[] = {
        { 17, 15 }, { 17, 32 }, { 18, 16 }, { 18, 33 }, { 16, 16 }, { 19, 16 }, { 0, 0 }
    };
    for (size_t i = 0; i < sizeof wrong / sizeof wrong[0]; i++) {
        int known = wrong[i].etype == 17 || wrong[i].etype == 18;
        enum krbrelay_answer answer = known ? KRBRELAY_KEY_SIZE : KRBRELAY_ETYPE;
        CHECK(krbrelay_sealer_new(&s, 17, keys[0], 16, &session) == KRBRELAY_OK);
        CHECK(krbrelay_sealer_new(&s, wrong[i].etype, text, wrong[i].len, &session) == answer);
        CHECK(krbrelay_sealer_next(&s, &next) == KRBRELAY_EMPTY);
        CHECK(krbrelay_opener_new(&o, wrong[i].etype, text, wrong[i].len, &expect) == answer);
    }
    session.mode = expect.mode = 22;
    CHECK(krbrelay_sealer_new(&s, 17, keys[0], 16, &session) == KRBRELAY_MODE);
    CHECK(krbrelay_opener_new(&o, 17, keys[0], 16, &expect) == KRBRELAY_MODE);
    session = session_of(KRBRELAY_SAFE, 7);
    expect = expect_of(KRBRELAY_SAFE);
    session.sender.len = expect.sender.len = 41;
    CHECK(krbrelay_sealer_new(&s, 17, keys[0], 16, &session) == KRBRELAY_ADDRESS);
    CHECK(krbrelay_opener_new(&o, 17, keys[0], 16, &expect) == KRBRELAY_ADDRESS);
    session = session_of(KRBRELAY_SAFE, 7);
    expect = expect_of(KRBRELAY_SAFE);
    tell_receiver(&session);
    session.receiver.len = expect.receiver.len = 41;
    CHECK(krbrelay_sealer_new(&s, 17, keys[0], 16, &session) == KRBRELAY_ADDRESS);
    CHECK(krbrelay_opener_new(&o, 17, keys[0], 16, &expect) == KRBRELAY_ADDRESS);
}

/* Each field that isn't read is looked at: each reserved one, and a receiver's address that the
 * messages don't tell. */
static void fields_that_are_not_read(void)
{
    struct krbrelay_sealer s = { 0 };
    struct krbrelay_opener o = { 0 };
    struct krbrelay_receiver r = { 0 };
    struct krbrelay_session session = session_of(KRBRELAY_SAFE, 7);
    struct krbrelay_expect expect = expect_of(KRBRELAY_SAFE);
    for (size_t i = 0; i < 5; i++) {
        session.reserved[i] = 1u << 31;
        CHECK(krbrelay_sealer_new(&s, 17, keys[0], 16, &session) == KRBRELAY_ARGUMENT);
        session.reserved[i] = 0;
    }
    for (size_t i = 0; i < 4; i++) {
        expect.reserved[i] = 1;
        CHECK(krbrelay_opener_new(&o, 17, keys[0], 16, &expect) == KRBRELAY_ARGUMENT);
        CHECK(krbrelay_receiver_new(&r, 17, keys[0], 16, &expect, 7, 0) == KRBRELAY_ARGUMENT);
        expect.reserved[i] = 0;
    }
    session.receiver.kind = 2;
    CHECK(krbrelay_sealer_new(&s, 17, keys[0], 16, &session) == KRBRELAY_ARGUMENT);
    session = session_of(KRBRELAY_SAFE, 7);
    session.receiver.len = 4;
    CHECK(krbrelay_sealer_new(&s, 17, keys[0], 16, &session) == KRBRELAY_ARGUMENT);
    session = session_of(KRBRELAY_SAFE, 7);
    session.receiver.bytes[39] = 1;
    CHECK(krbrelay_sealer_new(&s, 17, keys[0], 16, &session) == KRBRELAY_ARGUMENT);
    session.has_receiver = 1;
    CHECK(krbrelay_sealer_new(&s, 17, keys[0], 16, &session) == KRBRELAY_OK);
    krbrelay_sealer_free(&s);
}

/* A moment whose reserved field isn't 0 is an argument out of its range, before it is no moment. */
static void moments_that_are_not(void)
{
    struct krbrelay_sealer s = { 0 };
    struct krbrelay_opener o = { 0 };
    struct krbrelay_receiver r = { 0 };
    struct krbrelay_expect expect = expect_of(KRBRELAY_PRIV);
    struct krbrelay_demand any = { 0 };
    struct krbrelay_carried carried;
    struct krbrelay_moment at = moment(SECS, 1000000);
    enum krbrelay_answer wanted = KRBRELAY_MOMENT;
    uint32_t kind = 99;
    size_t size = 99;
    CHECK(new_sealer(&s, 18, KRBRELAY_PRIV, 7) == KRBRELAY_OK);
    CHECK(new_opener(&o, 18, KRBRELAY_PRIV) == KRBRELAY_OK);
    CHECK(krbrelay_receiver_new(&r, 18, keys[1], 32, &expect, 7, 0) == KRBRELAY_OK);
    for (int i = 0; i < 3; i++) {
        CHECK(krbrelay_sealer_seal(&s, text, 2, &at, zeros, frame, 1000, &size) == wanted);
        CHECK(krbrelay_sealer_seal_record(&s, KRBRELAY_TEXT, text, 2, &at, zeros, frame, 1000, &size)
              == wanted);
        CHECK(krbrelay_sealer_frame_size(&s, 2, &at, &size) == wanted);
        CHECK(krbrelay_opener_unseal(&o, priv_18, sizeof priv_18, 7, &at, text, 9, &size) == wanted);
        memcpy(frame, priv_18, sizeof priv_18);
        CHECK(krbrelay_opener_unseal_in_place(&o, frame, sizeof priv_18, 7, &at, &size) == wanted);
        CHECK(krbrelay_opener_open(&o, priv_18, sizeof priv_18, &any, &at, text, 9, &size, &carried)
              == wanted);
        CHECK(krbrelay_receiver_take(&r, priv_18, sizeof priv_18, &at, &kind, text, 9, &size)
              == wanted);
        CHECK(size == 99 && kind == 99);
        at.reserved = 1;
        at.microseconds = i == 0 ? 1000000 : 0;
        wanted = KRBRELAY_ARGUMENT;
    }
    krbrelay_sealer_free(&s);
    krbrelay_opener_free(&o);
    krbrelay_receiver_free(&r);
}

/* The safe frame with one byte changed, and what its opener answers. */
static uint32_t changed(struct krbrelay_opener *o, const struct known *k, size_t at, uint8_t by)
{
    memcpy(frame, k->frame, k->len);
    frame[at] ^= by;
    return unseal(o, frame, k->len, 7);
}

/* What opening a known frame at a moment, into so much room, answers. */
static uint32_t unseal_at(struct krbrelay_opener *o, const struct known *k,
                          struct krbrelay_moment at, size_t room)
{
    size_t size = 99;
    uint32_t answer = krbrelay_opener_unseal(o, k->frame, k->len, 7, &at, text, room, &size);
    CHECK(size == (answer == KRBRELAY_OK ? 3 : 99));
    return answer;
}

static void refusals_of_safe(void)
{
    struct krbrelay_opener o = { 0 };
    const struct known *k = &known_frames[0];
    CHECK(new_opener(&o, 17, KRBRELAY_SAFE) == KRBRELAY_OK);
    CHECK(changed(&o, k, 8, 3) == KRBRELAY_BADVERSION);      /* protocol version 6 */
    CHECK(changed(&o, k, 13, 1) == KRBRELAY_MSG_TYPE);       /* message type 21 */
    CHECK(changed(&o, k, 79, 31) == KRBRELAY_INAPP_CKSUM);   /* checksum type 16 */
    CHECK(changed(&o, k, 70, 2) == KRBRELAY_BADADDR);        /* 10.0.0.3 */
    CHECK(changed(&o, k, 43, 8) == KRBRELAY_MALFORMED);      /* no 'Z' behind the time */
    CHECK(changed(&o, k, 22, 1) == KRBRELAY_MODIFIED);       /* the text */
    CHECK(changed(&o, k, 95, 1) == KRBRELAY_MODIFIED);       /* the checksum */
    CHECK(changed(&o, k, 0, 1) == KRBRELAY_MALFORMED);       /* the tag of KRB-PRIV */
    CHECK(unseal(&o, k->frame, k->len, 8) == KRBRELAY_BADORDER);
    CHECK(unseal(&o, k->frame, k->len - 1, 7) == KRBRELAY_MALFORMED);
    CHECK(unseal(&o, k->frame, 0, 7) == KRBRELAY_MALFORMED);
    CHECK(unseal(&o, frame, KRBRELAY_FRAME_LIMIT + 1, 7) == KRBRELAY_FIELD_TOOLONG);
    CHECK(unseal(&o, priv_17, sizeof priv_17, 7) == KRBRELAY_MSG_TYPE);
    CHECK(unseal_at(&o, k, moment(SECS + 301, 0), 9) == KRBRELAY_SKEW);
    CHECK(unseal_at(&o, k, moment(SECS + 300, USEC), 9) == KRBRELAY_OK);
    CHECK(unseal_at(&o, k, moment(SECS, 1000000), 9) == KRBRELAY_MOMENT);
    text[0] = 0xee;
    CHECK(unseal_at(&o, k, moment(SECS, USEC), 2) == KRBRELAY_ROOM);
    CHECK(text[0] == 0xee);
    krbrelay_opener_free(&o);
}

static void refusals_of_priv(void)
{
    struct krbrelay_opener o = { 0 };
    const struct known *k = &known_frames[2];
    CHECK(unseal(&o, k->frame, k->len, 7) == KRBRELAY_EMPTY);
    CHECK(new_opener(&o, 17, KRBRELAY_PRIV) == KRBRELAY_OK);
    CHECK(changed(&o, k, 22, 3) == KRBRELAY_ETYPE_NOSUPP);   /* encryption type 18 */
    CHECK(changed(&o, k, 60, 1) == KRBRELAY_BAD_INTEGRITY);  /* a byte of the cipher */
    CHECK(changed(&o, k, 111, 1) == KRBRELAY_BAD_INTEGRITY); /* the last of the code */
    CHECK(unseal(&o, k->frame, k->len, 6) == KRBRELAY_BADORDER);
    CHECK(unseal(&o, safe_17, sizeof safe_17, 7) == KRBRELAY_MSG_TYPE);
    CHECK(unseal(&o, k->frame, k->len, 7) == KRBRELAY_OK);
    krbrelay_opener_wipe(&o);
    CHECK(unseal(&o, k->frame, k->len, 7) == KRBRELAY_WIPED);
    krbrelay_opener_wipe(&o);
    CHECK(unseal(&o, k->frame, k->len, 7) == KRBRELAY_WIPED);
    CHECK(new_opener(&o, 18, KRBRELAY_PRIV) == KRBRELAY_OK);
    CHECK(unseal(&o, priv_18, sizeof priv_18, 7) == KRBRELAY_OK);
    krbrelay_opener_free(&o);
    krbrelay_opener_free(&o);
    krbrelay_opener_wipe(&o);
    CHECK(unseal(&o, k->frame, k->len, 7) == KRBRELAY_EMPTY);
}

/* KRB-PRIV with a key version: SEQUENCE { etype 18, kvno 3, cipher of no bytes }. */
static const uint8_t priv_of_version_3[] = {
    0x75, 0x1e, 0x30, 0x1c, 0xa0, 0x03, 0x02, 0x01, 0x05, 0xa1, 0x03, 0x02, 0x01, 0x15, 0xa3, 0x10,
    0x30, 0x0e, 0xa0, 0x03, 0x02, 0x01, 0x12, 0xa1, 0x03, 0x02, 0x01, 0x03, 0xa2, 0x02, 0x04, 0x00
};

static void headers(void)
{
    struct krbrelay_header h;
    memset(&h, 0xee, sizeof h);
    CHECK(krbrelay_message_header(safe_18, sizeof safe_18 - 1, &h) == KRBRELAY_MALFORMED);
    CHECK(krbrelay_message_header(frame, KRBRELAY_FRAME_LIMIT + 1, &h) == KRBRELAY_FIELD_TOOLONG);
    CHECK(h.kind == 0xeeeeeeee && h.key_version == 0xeeeeeeee);
    CHECK(krbrelay_message_header(safe_18, sizeof safe_18, &h) == KRBRELAY_OK);
    CHECK(h.kind == KRBRELAY_SAFE && h.etype == 0 && h.checksum_type == 16);
    CHECK(h.has_number == 1 && h.number == 7 && h.has_key_version == 0 && h.key_version == 0);
    CHECK(krbrelay_message_header(priv_of_version_3, sizeof priv_of_version_3, &h) == KRBRELAY_OK);
    CHECK(h.kind == KRBRELAY_PRIV && h.etype == 18 && h.checksum_type == 0);
    CHECK(h.has_number == 0 && h.number == 0 && h.has_key_version == 1 && h.key_version == 3);
    CHECK(krbrelay_message_header(priv_17, sizeof priv_17, &h) == KRBRELAY_OK);
    CHECK(h.kind == KRBRELAY_PRIV && h.etype == 17 && h.has_key_version == 0 && h.key_version == 0);
}

struct named { uint32_t answer; const char *name, *text; };

/* Each answer of the header; names are those of RFC 4120 section 7.5.9, without KRB_AP_ERR_ and the
 * like, where it has one. */
static const struct named known_answers[] = {
    /* answers.toml: known */
    { KRBRELAY_OK, "OK", "done" },
    { KRBRELAY_WIPED, "WIPED", "the keys were overwritten" },
    { KRBRELAY_TOO_LONG, "TOO_LONG", "the user data are longer than a message may carry" },
    { KRBRELAY_EXHAUSTED, "EXHAUSTED", "no sequence number is left" },
    { KRBRELAY_ETYPE_NOSUPP, "ETYPE_NOSUPP", "the encryption type isn't the expected one" },
    { KRBRELAY_BAD_INTEGRITY, "BAD_INTEGRITY",
      "the encrypted part is too short, or its integrity check fails" },
    { KRBRELAY_SKEW, "SKEW", "the time is off by more than the skew, or is missing" },
    { KRBRELAY_BADADDR, "BADADDR", "an address isn't the expected one, or is missing" },
    { KRBRELAY_BADVERSION, "BADVERSION", "the protocol version isn't 5" },
    { KRBRELAY_MSG_TYPE, "MSG_TYPE",
      "the message isn't of the expected kind, KRB-SAFE or KRB-PRIV" },
    { KRBRELAY_MODIFIED, "MODIFIED", "the checksum differs" },
    { KRBRELAY_BADORDER, "BADORDER", "the sequence number isn't the expected one" },
    { KRBRELAY_INAPP_CKSUM, "INAPP_CKSUM", "the checksum's type isn't the expected one" },
    { KRBRELAY_FIELD_TOOLONG, "FIELD_TOOLONG", "the message is longer than a message may be" },
    { KRBRELAY_MALFORMED, "MALFORMED", "not a DER-encoded KRB-SAFE or KRB-PRIV message" },
    { KRBRELAY_BAD_RECORD, "BAD_RECORD", "the user data aren't a record" },
    { KRBRELAY_AFTER_CLOSE, "AFTER_CLOSE", "a close was accepted before" },
    { KRBRELAY_MEMORY, "MEMORY", "out of memory" },
    { KRBRELAY_ETYPE, "ETYPE", "the encryption type is neither 17 nor 18" },
    { KRBRELAY_ROOM, "ROOM", "a buffer is too small" },
    { KRBRELAY_EMPTY, "EMPTY", "the handle holds nothing" },
    { KRBRELAY_KEY_SIZE, "KEY_SIZE", "the key hasn't the size of its encryption type" },
    { KRBRELAY_MODE, "MODE", "the mode is neither KRB-SAFE nor KRB-PRIV" },
    { KRBRELAY_MOMENT, "MOMENT", "the time is outside the years 1970 to 9999" },
    { KRBRELAY_ADDRESS, "ADDRESS", "an address has over 40 bytes" },
    { KRBRELAY_ARGUMENT, "ARGUMENT", "an argument is out of its range" },
    { KRBRELAY_RECORD, "RECORD", "the texts don't fit in a record" },
    { KRBRELAY_CLOCK, "CLOCK", "the clock can't be read, or isn't in the years 1970 to 9999" },
    { KRBRELAY_RANDOM, "RANDOM", "the system has no random bytes" },
    { KRBRELAY_PROCESSOR, "PROCESSOR", "the processor lacks instructions of the library" },
    { KRBRELAY_REPEATED, "REPEATED", "the number was taken before" },
    { KRBRELAY_TOO_OLD, "TOO_OLD", "the number is too far below the highest that was taken" },
    /* end of known */
};

typedef enum krbrelay_answer written_call(uint32_t, char *, size_t, size_t *);

/* A name or a text is written into as much room as it takes with its zero, and no less. */
static void is_written(written_call *write, uint32_t answer, const char *expected)
{
    char buffer[KRBRELAY_TEXT_SIZE];
    size_t size = 99, len = strlen(expected);
    memset(buffer, 'x', sizeof buffer);
    CHECK(write(answer, buffer, len, &size) == KRBRELAY_ROOM);
    CHECK(size == 99 && buffer[0] == 'x');
    CHECK(write(answer, buffer, sizeof buffer, &size) == KRBRELAY_OK);
    CHECK(size == len && strcmp(buffer, expected) == 0);
    CHECK(write(answer, buffer, len + 1, &size) == KRBRELAY_OK);
}

static void names(void)
{
    uint32_t told = 0;
    for (size_t i = 0; i < sizeof known_answers / sizeof known_answers[0]; i++) {
        is_written(krbrelay_answer_name, known_answers[i].answer, known_answers[i].name);
        is_written(krbrelay_answer_text, known_answers[i].answer, known_answers[i].text);
    }
    for (uint32_t answer = 0; answer < 2000; answer++) {
        char buffer[KRBRELAY_TEXT_SIZE];
        size_t size = 99;
        enum krbrelay_answer found = krbrelay_answer_name(answer, buffer, sizeof buffer, &size);
        CHECK(found == KRBRELAY_OK || (found == KRBRELAY_ARGUMENT && size == 99));
        told += found == KRBRELAY_OK;
    }
    CHECK(told == sizeof known_answers / sizeof known_answers[0]);
    CHECK(krbrelay_version() == KRBRELAY_VERSION);
}

/* Handles whose array moves in memory, with the old place overwritten. */
struct handles { struct krbrelay_sealer s; struct krbrelay_opener o; struct krbrelay_receiver r; };

static struct handles *moved(struct handles *from)
{
    struct handles *to = malloc(sizeof *to);
    CHECK(to != NULL);
    memcpy(to, from, sizeof *to);
    memset(from, 0xee, sizeof *from);
    free(from);
    return to;
}

/* Between any two calls a handle may be moved: it goes on with its number. */
static void handles_that_move(void)
{
    struct handles *h = calloc(1, sizeof *h);
    struct krbrelay_expect expect = expect_of(KRBRELAY_PRIV);
    struct krbrelay_moment at = moment(SECS, USEC);
    size_t size = 0, n = 0;
    uint64_t next = 0;
    uint32_t kind = 0, closed = 9;
    CHECK(h != NULL);
    h = moved(h);
    CHECK(new_sealer(&h->s, 18, KRBRELAY_PRIV, 7) == KRBRELAY_OK);
    CHECK(new_opener(&h->o, 18, KRBRELAY_PRIV) == KRBRELAY_OK);
    CHECK(krbrelay_receiver_new(&h->r, 18, keys[1], 32, &expect, 7, 0) == KRBRELAY_OK);
    for (uint64_t number = 7; number < 20; number++) {
        h = moved(h);
        CHECK(seal(&h->s, "Dhi", 3, sizeof frame, &size) == KRBRELAY_OK);
        h = moved(h);
        CHECK(unseal(&h->o, frame, size, number) == KRBRELAY_OK);
        IS(krbrelay_receiver_take(&h->r, frame, size, &at, &kind, text, sizeof text, &n));
        CHECK(kind == KRBRELAY_TEXT && n == 2 && memcmp(text, "hi", 2) == 0);
    }
    h = moved(h);
    CHECK(krbrelay_sealer_next(&h->s, &next) == KRBRELAY_OK && next == 20);
    CHECK(krbrelay_receiver_state(&h->r, &next, &closed) == KRBRELAY_OK && next == 20 && closed == 0);
    krbrelay_opener_wipe(&h->o);
    h = moved(h);
    CHECK(unseal(&h->o, frame, size, 19) == KRBRELAY_WIPED);
    krbrelay_sealer_free(&h->s);
    krbrelay_opener_free(&h->o);
    krbrelay_receiver_free(&h->r);
    h = moved(h);
    CHECK(krbrelay_sealer_is_empty(&h->s) && krbrelay_opener_is_empty(&h->o));
    free(h);
}

int main(int count, char **words)
{
    check_only(1, count, words);
    RUN(frames_of_another_sealer());
    RUN(round_trips());
    RUN(sizes_of_frames());
    RUN(sizes_before_sealing());
    RUN(answers_of_a_size());
    RUN(answers_of_a_sealer());
    RUN(several_messages());
    RUN(answers_of_several());
    RUN(arguments());
    RUN(fields_that_are_not_read());
    RUN(moments_that_are_not());
    RUN(refusals_of_safe());
    RUN(refusals_of_priv());
    RUN(headers());
    RUN(names());
    RUN(handles_that_move());
    return check_status("answers");
}
