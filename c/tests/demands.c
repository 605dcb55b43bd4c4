/* Opening with demands: what isn't authentic is refused, and the longest addresses; and NULL with length 0. Which
 * demands there are is tested by fields.c; which messages meet them by the conformance suite, which reads its cases by
 * this library too, and by python/tests/test_opener.py; records, receivers, modes and opening in place by sequences.py.
 * Frames are those of an independent sealer (frames.h). */
#include "check.h"
#include "frames.h"
#include "krbrelay.h"
#include "session.h"

#include <string.h>

static uint8_t data[4096];
static const uint8_t zeros[16];
static const struct krbrelay_moment now = { SECS, USEC, 0 };

static struct krbrelay_opener opener_from(uint32_t mode, int etype, struct krbrelay_expect expect)
{
    struct krbrelay_opener o = { 0 };
    expect.mode = mode;
    IS(krbrelay_opener_new(&o, etype, keys[etype - 17], key_size(etype), &expect));
    return o;
}

/* What opening with demands answers; the user data 44 68 69 come with KRBRELAY_OK alone. */
static enum krbrelay_answer open_with(struct krbrelay_opener *o, const uint8_t *f, size_t len,
                                      const struct krbrelay_demand *demand,
                                      struct krbrelay_carried *carried)
{
    size_t size = 99;
    enum krbrelay_answer answer;
    memset(carried, 0xee, sizeof *carried);
    memset(data, 0xee, 8);
    answer = krbrelay_opener_open(o, f, len, demand, &now, data, sizeof data, &size, carried);
    if (answer == KRBRELAY_OK)
        CHECK(size == 3 && memcmp(data, "Dhi\xee", 4) == 0);
    else
        CHECK(size == 99 && data[0] == 0xee && carried->number == 0xeeeeeeee);
    return answer;
}

/* What isn't authentic stays refused where nothing is demanded. */
static void refusals(void)
{
    struct krbrelay_opener o = opener_from(KRBRELAY_SAFE, 17, expect_of(KRBRELAY_SAFE));
    struct krbrelay_opener p = opener_from(KRBRELAY_PRIV, 18, expect_of(KRBRELAY_PRIV));
    struct krbrelay_demand any = { 0 };
    struct krbrelay_carried c;
    uint8_t changed[sizeof priv_18];
    size_t size;
    memcpy(changed, safe_17, sizeof safe_17);
    changed[95] ^= 1;
    CHECK(open_with(&o, changed, sizeof safe_17, &any, &c) == KRBRELAY_MODIFIED);
    CHECK(open_with(&o, priv_17, sizeof priv_17, &any, &c) == KRBRELAY_MSG_TYPE);
    CHECK(open_with(&o, safe_18, sizeof safe_18, &any, &c) == KRBRELAY_INAPP_CKSUM);
    CHECK(open_with(&p, priv_17, sizeof priv_17, &any, &c) == KRBRELAY_ETYPE_NOSUPP);
    CHECK(open_with(&p, priv_18, sizeof priv_18, &any, &c) == KRBRELAY_OK && c.number == 7);
    for (size_t i = 28; i < sizeof priv_18; i++) {
        memcpy(changed, priv_18, sizeof priv_18);
        changed[i] ^= 0x10;
        CHECK(open_with(&p, changed, sizeof priv_18, &any, &c) == KRBRELAY_BAD_INTEGRITY);
    }
    CHECK(krbrelay_opener_open(&o, safe_17, sizeof safe_17, &any, &now, data, 2, &size, &c)
          == KRBRELAY_ROOM);
    krbrelay_opener_wipe(&o);
    CHECK(open_with(&o, safe_17, sizeof safe_17, &any, &c) == KRBRELAY_WIPED);
    krbrelay_opener_free(&o);
    CHECK(open_with(&o, safe_17, sizeof safe_17, &any, &c) == KRBRELAY_EMPTY);
    krbrelay_opener_free(&p);
}

/* An address of IPv6 joined with its port has 34 bytes. */
static void long_addresses(void)
{
    struct krbrelay_session session = session_of(KRBRELAY_PRIV, 0);
    struct krbrelay_expect expect = expect_of(KRBRELAY_PRIV);
    struct krbrelay_sealer s = { 0 };
    struct krbrelay_demand d = { .how_sender = KRBRELAY_REQUIRED };
    struct krbrelay_carried c;
    struct krbrelay_opener o;
    uint8_t frame[KRBRELAY_FRAME_SIZE(3)];
    size_t size = 0, size_of_data = 0;
    session.sender.kind = 256;
    session.sender.len = 34;
    memset(session.sender.bytes, 0x77, 34);
    d.sender = expect.sender = session.sender;
    CHECK(krbrelay_sealer_new(&s, 18, keys[1], 32, &session) == KRBRELAY_OK);
    CHECK(krbrelay_sealer_seal(&s, (const uint8_t *)"Dhi", 3, &now, zeros, frame, sizeof frame,
                               &size) == KRBRELAY_OK);
    o = opener_from(KRBRELAY_PRIV, 18, expect);
    IS(krbrelay_opener_unseal(&o, frame, size, 0, &now, data, sizeof data, &size_of_data));
    CHECK(open_with(&o, frame, size, &d, &c) == KRBRELAY_OK);
    CHECK(c.sender.len == 34 && c.sender.kind == 256 && c.sender.bytes[33] == 0x77);
    CHECK(c.sender.bytes[34] == 0 && c.has_number == 1 && c.number == 0);
    krbrelay_opener_free(&o);
    krbrelay_sealer_free(&s);
}

/* NULL with length 0: an empty text, an empty message, and no room. */
static void nothing_given(void)
{
    struct krbrelay_session session = session_of(KRBRELAY_SAFE, 7);
    struct krbrelay_opener o = opener_from(KRBRELAY_SAFE, 17, expect_of(KRBRELAY_SAFE));
    struct krbrelay_sealer s = { 0 };
    struct krbrelay_header header;
    uint8_t frame[KRBRELAY_FRAME_SIZE(0)];
    size_t size = 0;
    CHECK(krbrelay_sealer_new(&s, 17, NULL, 0, &session) == KRBRELAY_KEY_SIZE);
    CHECK(krbrelay_sealer_new(&s, 17, keys[0], 16, &session) == KRBRELAY_OK);
    CHECK(krbrelay_sealer_seal(&s, NULL, 0, &now, zeros, NULL, 0, &size) == KRBRELAY_ROOM);
    IS(krbrelay_sealer_seal(&s, NULL, 0, &now, zeros, frame, sizeof frame, &size));
    CHECK(krbrelay_opener_unseal(&o, NULL, 0, 7, &now, data, 9, &size) == KRBRELAY_MALFORMED);
    CHECK(krbrelay_opener_unseal(&o, safe_17, sizeof safe_17, 7, &now, NULL, 0, &size)
          == KRBRELAY_ROOM);
    CHECK(krbrelay_opener_unseal_in_place(&o, NULL, 0, 7, &now, &size) == KRBRELAY_MALFORMED);
    CHECK(krbrelay_message_header(NULL, 0, &header) == KRBRELAY_MALFORMED);
    CHECK(krbrelay_answer_name(KRBRELAY_OK, NULL, 0, &size) == KRBRELAY_ROOM);
    krbrelay_sealer_free(&s);
    krbrelay_opener_free(&o);
}

int main(int count, char **words)
{
    check_only(1, count, words);
    RUN(refusals());
    RUN(long_addresses());
    RUN(nothing_given());
    return check_status("demands");
}
