/* Which field of a struct is wrong: each wrong field by its name, and over drawn structs that none is
 * told if and only if the call that takes the struct takes it. */
#include "check.h"
#include "draw.h"
#include "krbrelay.h"
#include "session.h"

#include <string.h>

static const uint8_t key[16];

static uint32_t of_sealer(const struct krbrelay_session *session)
{
    struct krbrelay_sealer sealer = { 0 };
    uint32_t answer = krbrelay_sealer_new(&sealer, 17, key, sizeof key, session);
    krbrelay_sealer_free(&sealer);
    return answer;
}

static uint32_t of_opener(const struct krbrelay_expect *expect)
{
    struct krbrelay_opener opener = { 0 };
    uint32_t answer = krbrelay_opener_new(&opener, 17, key, sizeof key, expect);
    krbrelay_opener_free(&opener);
    return answer;
}

/* What an opener answers to bytes that are no message, under a demand: KRBRELAY_MALFORMED where it takes
 * the demand. */
static uint32_t of_open(struct krbrelay_opener *opener, const struct krbrelay_demand *demand)
{
    struct krbrelay_moment at = moment(SECS, USEC);
    struct krbrelay_carried carried;
    uint8_t text[1];
    size_t size;
    return krbrelay_opener_open(opener, text, 0, demand, &at, text, sizeof text, &size, &carried);
}

static uint32_t of_peer(const struct krbrelay_demand *demand)
{
    struct krbrelay_session session = session_of(KRBRELAY_PRIV, 7);
    struct krbrelay_peer peer = { 0 };
    uint32_t answer = krbrelay_peer_new(&peer, 17, key, sizeof key, &session, demand);
    krbrelay_peer_free(&peer);
    return answer;
}

static void named(uint32_t found, enum krbrelay_field wanted, const char *name)
{
    CHECK(found == (uint32_t)wanted);
    CHECK(strcmp(krbrelay_field_name(found), name) == 0);
}

/* ---- Each field by its name */

static void fields_of_a_session(void)
{
    struct krbrelay_session s = session_of(KRBRELAY_PRIV, 7);
    named(krbrelay_check_session(&s), KRBRELAY_FIELD_NONE, "none");
    s.reserved[4] = 1;
    named(krbrelay_check_session(&s), KRBRELAY_FIELD_RESERVED, "reserved");
    s.receiver.kind = 2;
    named(krbrelay_check_session(&s), KRBRELAY_FIELD_RECEIVER, "receiver");
    s.has_receiver = 1;
    named(krbrelay_check_session(&s), KRBRELAY_FIELD_RESERVED, "reserved");
    s.receiver.len = 41;
    named(krbrelay_check_session(&s), KRBRELAY_FIELD_RECEIVER, "receiver");
    s.sender.len = 41;
    named(krbrelay_check_session(&s), KRBRELAY_FIELD_SENDER, "sender");
    s.mode = 22;
    named(krbrelay_check_session(&s), KRBRELAY_FIELD_MODE, "mode");
}

static void fields_of_an_expectation(void)
{
    struct krbrelay_expect x = expect_of(KRBRELAY_SAFE);
    named(krbrelay_check_expect(&x), KRBRELAY_FIELD_NONE, "none");
    x.reserved[3] = 1;
    named(krbrelay_check_expect(&x), KRBRELAY_FIELD_RESERVED, "reserved");
    x.receiver.len = 41;
    named(krbrelay_check_expect(&x), KRBRELAY_FIELD_RECEIVER, "receiver");
    x.sender.len = 41;
    named(krbrelay_check_expect(&x), KRBRELAY_FIELD_SENDER, "sender");
    x.mode = 19;
    named(krbrelay_check_expect(&x), KRBRELAY_FIELD_MODE, "mode");
}

/* Those after the number, which openers and peers look at alike. */
static void last_fields(uint32_t (*check)(const struct krbrelay_demand *), struct krbrelay_demand d)
{
    d.reserved[0] = 1;
    named(check(&d), KRBRELAY_FIELD_RESERVED, "reserved");
    d.needs_time_or_number = 2;
    named(check(&d), KRBRELAY_FIELD_NEEDS_TIME_OR_NUMBER, "needs_time_or_number");
    d.how_receiver = KRBRELAY_IGNORE;
    d.receiver.bytes[39] = 1;
    named(check(&d), KRBRELAY_FIELD_RECEIVER, "receiver");
    d.how_sender = KRBRELAY_REQUIRED;
    d.sender.len = 41;
    named(check(&d), KRBRELAY_FIELD_SENDER, "sender");
    d.how_time = KRBRELAY_IGNORE;
    d.skew = 1;
    named(check(&d), KRBRELAY_FIELD_SKEW, "skew");
}

/* Those before the number. */
static void first_fields(uint32_t (*check)(const struct krbrelay_demand *), struct krbrelay_demand d)
{
    d.how_number = 4;
    named(check(&d), KRBRELAY_FIELD_HOW_NUMBER, "how_number");
    d.how_time = 4;
    named(check(&d), KRBRELAY_FIELD_HOW_TIME, "how_time");
    d.how_receiver = 3;
    named(check(&d), KRBRELAY_FIELD_HOW_RECEIVER, "how_receiver");
    d.how_sender = 3;
    named(check(&d), KRBRELAY_FIELD_HOW_SENDER, "how_sender");
}

static void fields_of_a_demand(void)
{
    struct krbrelay_demand d = { 0 };
    named(krbrelay_check_demand(&d), KRBRELAY_FIELD_NONE, "none");
    d.number = 1;
    named(krbrelay_check_demand(&d), KRBRELAY_FIELD_NUMBER, "number");
    d.how_number = KRBRELAY_IF_PRESENT;
    d.number = UINT64_MAX;
    named(krbrelay_check_demand(&d), KRBRELAY_FIELD_NONE, "none");
    last_fields(krbrelay_check_demand, d);
    first_fields(krbrelay_check_demand, d);
}

static void fields_of_a_demand_of_a_peer(void)
{
    struct krbrelay_demand d = { 0 };
    named(krbrelay_check_peer_demand(&d), KRBRELAY_FIELD_HOW_NUMBER, "how_number");
    d.how_number = KRBRELAY_IF_PRESENT;
    named(krbrelay_check_peer_demand(&d), KRBRELAY_FIELD_HOW_NUMBER, "how_number");
    d.how_number = KRBRELAY_ABSENT_IS_0;
    d.number = UINT64_C(4294967297);
    named(krbrelay_check_peer_demand(&d), KRBRELAY_FIELD_NUMBER, "number");
    d.number--;
    named(krbrelay_check_peer_demand(&d), KRBRELAY_FIELD_NONE, "none");
    last_fields(krbrelay_check_peer_demand, d);
    first_fields(krbrelay_check_peer_demand, d);
}

static void other_numbers(void)
{
    CHECK(strcmp(krbrelay_field_name(KRBRELAY_FIELD_NEEDS_TIME_OR_NUMBER + 1), "none") == 0);
    CHECK(strcmp(krbrelay_field_name(UINT32_MAX), "none") == 0);
}

/* ---- Drawn structs: some words of one that is taken become other numbers */

enum { DRAWN = 20000 };

static void change(void *from, size_t size)
{
    static const uint32_t values[] = { 0, 1, 2, 3, 4, 20, 21, 40, 41, UINT32_MAX };
    uint64_t changes = below(4);
    while (changes-- > 0) {
        uint32_t value = values[below(sizeof values / sizeof *values)];
        memcpy((uint8_t *)from + 4 * below(size / 4), &value, 4);
    }
}

static void drawn_sessions(void)
{
    int taken = 0;
    for (int i = 0; i < DRAWN; i++) {
        struct krbrelay_session s = session_of(KRBRELAY_SAFE + (uint32_t)below(2), 7);
        if (below(2))
            tell_receiver(&s);
        change(&s, sizeof s);
        CHECK((krbrelay_check_session(&s) == KRBRELAY_FIELD_NONE) == (of_sealer(&s) == KRBRELAY_OK));
        taken += of_sealer(&s) == KRBRELAY_OK;
    }
    CHECK(taken > DRAWN / 10 && taken < DRAWN * 9 / 10);
}

static void drawn_expectations(void)
{
    int taken = 0;
    for (int i = 0; i < DRAWN; i++) {
        struct krbrelay_expect x = expect_of(KRBRELAY_SAFE + (uint32_t)below(2));
        change(&x, sizeof x);
        CHECK((krbrelay_check_expect(&x) == KRBRELAY_FIELD_NONE) == (of_opener(&x) == KRBRELAY_OK));
        taken += of_opener(&x) == KRBRELAY_OK;
    }
    CHECK(taken > DRAWN / 10 && taken < DRAWN * 9 / 10);
}

static void drawn_demands(void)
{
    struct krbrelay_expect expect = expect_of(KRBRELAY_PRIV);
    struct krbrelay_opener opener = { 0 };
    int taken = 0;
    CHECK(krbrelay_opener_new(&opener, 17, key, sizeof key, &expect) == KRBRELAY_OK);
    for (int i = 0; i < DRAWN; i++) {
        struct krbrelay_demand d = demand_of(1, 255, below(9));
        if (below(2))
            d = (struct krbrelay_demand){ 0 };
        change(&d, sizeof d);
        CHECK((krbrelay_check_demand(&d) == KRBRELAY_FIELD_NONE)
              == (of_open(&opener, &d) == KRBRELAY_MALFORMED));
        CHECK((krbrelay_check_peer_demand(&d) == KRBRELAY_FIELD_NONE) == (of_peer(&d) == KRBRELAY_OK));
        taken += krbrelay_check_demand(&d) == KRBRELAY_FIELD_NONE;
    }
    CHECK(taken > DRAWN / 10 && taken < DRAWN * 9 / 10);
    krbrelay_opener_free(&opener);
}

int main(int count, char **words)
{
    check_only(1, count, words);
    state = 7;
    RUN(fields_of_a_session());
    RUN(fields_of_an_expectation());
    RUN(fields_of_a_demand());
    RUN(fields_of_a_demand_of_a_peer());
    RUN(other_numbers());
    RUN(drawn_sessions());
    RUN(drawn_expectations());
    RUN(drawn_demands());
    return check_status("fields");
}
