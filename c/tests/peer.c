/* Peers, and krbrelay_receiver_take_numbered: two ends of a session in both directions, what a refusal
 * by its number tells, exports, several messages in one call, and the order of the reasons of the calls that make a
 * peer: that of the other calls is tested by sequences.py, and which demands a peer takes by fields.c. */
#include "check.h"
#include "frames.h"
#include "krbrelay.h"
#include "session.h"

#include <stdlib.h>
#include <string.h>

enum end { CLIENT, SERVER };
enum { ROOM = 4096, MOST = KRBRELAY_MOST_MESSAGES };

#define NONE_LEFT UINT64_C(4294967296)

static const uint8_t zeros[16];
static const struct krbrelay_moment now = { SECS, USEC, 0 };
static uint8_t text[ROOM], some_data[ROOM];

static const uint8_t *key_of(int etype) { return keys[etype - 17]; }

static struct krbrelay_address direction(enum end end)
{
    return (struct krbrelay_address){ KRBRELAY_DIRECTIONAL, 4, { 0, 0, 0, (uint8_t)end } };
}

static enum end other(enum end end) { return end == CLIENT ? SERVER : CLIENT; }

/* What an end writes, and what it demands of the other one's messages. */
static struct krbrelay_session session_at(uint32_t mode, enum end end, uint32_t first)
{
    return (struct krbrelay_session){ .mode = mode, .first = first, .sender = direction(end),
                                      .has_receiver = 1, .receiver = direction(other(end)) };
}

static struct krbrelay_demand demand_at(enum end end, uint64_t number)
{
    return (struct krbrelay_demand){
        .how_sender = KRBRELAY_REQUIRED, .sender = direction(other(end)),
        .how_receiver = KRBRELAY_REQUIRED, .receiver = direction(end),
        .how_time = KRBRELAY_REQUIRED, .skew = 300,
        .how_number = KRBRELAY_REQUIRED, .number = number
    };
}

static struct krbrelay_peer peer_at(int etype, uint32_t mode, enum end end, uint32_t first,
                                    uint64_t number)
{
    struct krbrelay_session session = session_at(mode, end, first);
    struct krbrelay_demand demand = demand_at(end, number);
    struct krbrelay_peer peer = KRBRELAY_INIT;
    IS(krbrelay_peer_new(&peer, etype, key_of(etype), key_size(etype), &session, &demand));
    CHECK(!krbrelay_peer_is_empty(&peer));
    return peer;
}

/* A message, and its size. */
struct message { uint8_t frame[ROOM]; size_t size; };

static struct message sealed(struct krbrelay_peer *by, const void *data, size_t len)
{
    struct message it = { { 0 }, 0 };
    CHECK(krbrelay_peer_seal(by, data, len, &now, zeros, it.frame, ROOM, &it.size) == KRBRELAY_OK);
    return it;
}

/* What an opening leaves where it refuses. */
struct opened { enum krbrelay_answer answer; size_t size; struct krbrelay_carried carried; };

static struct opened opened_at(struct krbrelay_peer *by, const struct message *it,
                               struct krbrelay_moment at)
{
    struct opened found = { KRBRELAY_OK, 12345, KRBRELAY_INIT };
    memset(&found.carried, 0xee, sizeof found.carried);
    memset(text, 0xee, sizeof text);
    found.answer = krbrelay_peer_open(by, it->frame, it->size, &at, text, sizeof text, &found.size,
                                      &found.carried);
    CHECK(found.answer == KRBRELAY_OK || (found.size == 12345 && text[0] == 0xee));
    return found;
}

static struct opened opened(struct krbrelay_peer *by, const struct message *it)
{
    return opened_at(by, it, now);
}

static int is_untold(const struct opened *found)
{
    struct krbrelay_carried none;
    memset(&none, 0xee, sizeof none);
    return memcmp(&found->carried, &none, sizeof none) == 0;
}

/* It tells a message of this end's at the number, sealed at `now`. */
static int tells(const struct opened *found, enum end from, uint32_t number)
{
    struct krbrelay_carried told = KRBRELAY_INIT;
    told.seconds = SECS;
    told.microseconds = USEC;
    told.has_seconds = told.has_microseconds = told.has_number = told.has_receiver = 1;
    told.number = number;
    told.sender = direction(from);
    told.receiver = direction(other(from));
    return memcmp(&found->carried, &told, sizeof told) == 0;
}

static int is_at(struct krbrelay_peer *peer, uint64_t next, uint64_t expected)
{
    uint64_t found[2] = { 99, 99 };
    CHECK(krbrelay_peer_state(peer, &found[0], &found[1]) == KRBRELAY_OK);
    return found[0] == next && found[1] == expected;
}

/* ---- both directions */

/* The other end opens it, and has the data and what the message carried. */
static void goes(struct krbrelay_peer *from, struct krbrelay_peer *to, enum end end, uint32_t number,
                 size_t len)
{
    uint8_t data[300];
    struct message it;
    struct opened found;
    memset(data, (int)number & 0x7f, sizeof data);
    it = sealed(from, data, len);
    found = opened(to, &it);
    CHECK(found.answer == KRBRELAY_OK && found.size == len && memcmp(text, data, len) == 0);
    CHECK(tells(&found, end, number));
}

static void both_directions(int etype, uint32_t mode)
{
    static const size_t sizes[] = { 0, 1, 15, 16, 17, 300 };
    struct krbrelay_peer client = peer_at(etype, mode, CLIENT, 7, 1000);
    struct krbrelay_peer server = peer_at(etype, mode, SERVER, 1000, 7);
    uint32_t sent[2] = { 7, 1000 };
    for (size_t i = 0; i < sizeof sizes / sizeof sizes[0]; i++) {
        goes(&client, &server, CLIENT, sent[0]++, sizes[i]);
        goes(&client, &server, CLIENT, sent[0]++, 3);
        goes(&server, &client, SERVER, sent[1]++, sizes[i]);
        CHECK(is_at(&client, sent[0], sent[1]) && is_at(&server, sent[1], sent[0]));
    }
    krbrelay_peer_free(&client);
    krbrelay_peer_free(&server);
    CHECK(krbrelay_peer_is_empty(&client) && client.at == NULL);
}

/* A frame that comes again and one that comes early differ by the number that came. */
static void repeats_and_gaps(int etype, uint32_t mode)
{
    struct krbrelay_peer client = peer_at(etype, mode, CLIENT, 7, 0);
    struct krbrelay_peer server = peer_at(etype, mode, SERVER, 0, 7);
    struct message it[3] = { sealed(&client, "a", 1), sealed(&client, "b", 1), sealed(&client, "c", 1) };
    struct opened found = opened(&server, &it[0]);
    CHECK(found.answer == KRBRELAY_OK);
    found = opened(&server, &it[0]);
    CHECK(found.answer == KRBRELAY_BADORDER && tells(&found, CLIENT, 7));
    found = opened(&server, &it[2]);
    CHECK(found.answer == KRBRELAY_BADORDER && tells(&found, CLIENT, 9));
    CHECK(is_at(&server, 0, 8));
    for (int i = 1; i < 3; i++)
        CHECK(opened(&server, &it[i]).answer == KRBRELAY_OK && text[0] == 'a' + i);
    CHECK(is_at(&server, 0, 10));
    krbrelay_peer_free(&client);
    krbrelay_peer_free(&server);
}

/* A refusal for another reason tells nothing and moves no number, also where the number is wrong too. */
static void other_refusals(int etype, uint32_t mode, uint64_t expected)
{
    struct krbrelay_peer client = peer_at(etype, mode, CLIENT, 7, 0);
    struct krbrelay_peer server = peer_at(etype, mode, SERVER, 0, expected);
    struct message it = sealed(&client, "hi", 2);
    struct opened found = opened_at(&server, &it, moment(SECS + 301, USEC));
    CHECK(found.answer == KRBRELAY_SKEW && is_untold(&found));
    it.frame[it.size - 1] ^= 1;
    found = opened(&server, &it);
    CHECK(found.answer == (mode == KRBRELAY_SAFE ? KRBRELAY_MODIFIED : KRBRELAY_BAD_INTEGRITY));
    CHECK(is_untold(&found));
    it.frame[it.size - 1] ^= 1;
    it.size--;
    found = opened(&server, &it);
    CHECK(found.answer == KRBRELAY_MALFORMED && is_untold(&found) && is_at(&server, 0, expected));
    krbrelay_peer_free(&client);
    krbrelay_peer_free(&server);
}

/* A message that comes back to its maker at the number that is expected: the addresses refuse it, and
 * where none is demanded it is taken. */
static void reflection(int etype, uint32_t mode)
{
    struct krbrelay_peer client = peer_at(etype, mode, CLIENT, 7, 7);
    struct krbrelay_session session = session_at(mode, CLIENT, 7);
    struct krbrelay_demand any = { .how_number = KRBRELAY_REQUIRED, .number = 7 };
    struct message it = sealed(&client, "hi", 2);
    struct opened found = opened(&client, &it);
    CHECK(found.answer == KRBRELAY_BADADDR && is_untold(&found) && is_at(&client, 8, 7));
    IS(krbrelay_peer_new(&client, etype, key_of(etype), key_size(etype), &session, &any));
    CHECK(opened(&client, &it).answer == KRBRELAY_OK && is_at(&client, 7, 8));
    krbrelay_peer_free(&client);
}

/* ---- the messages of an independent sealer, of 10.0.0.1: what the demand says of time and number */

static enum krbrelay_answer opens_known(struct krbrelay_demand demand, const uint8_t *frame, size_t len,
                                        struct krbrelay_moment at, uint32_t *has_number)
{
    struct krbrelay_session session = session_of(KRBRELAY_SAFE, 0);
    struct krbrelay_peer peer = KRBRELAY_INIT;
    struct krbrelay_carried carried = KRBRELAY_INIT;
    uint64_t next = 99, expected = 99;
    size_t size = 0;
    enum krbrelay_answer answer;
    carried.has_number = 9;
    CHECK(krbrelay_peer_new(&peer, 17, keys[0], 16, &session, &demand) == KRBRELAY_OK);
    answer = krbrelay_peer_open(&peer, frame, len, &at, text, sizeof text, &size, &carried);
    CHECK(answer != KRBRELAY_OK || (size == 3 && memcmp(text, "Dhi", 3) == 0));
    CHECK(krbrelay_peer_state(&peer, &next, &expected) == KRBRELAY_OK && next == 0);
    CHECK(expected == demand.number + (answer == KRBRELAY_OK));
    *has_number = carried.has_number;
    krbrelay_peer_free(&peer);
    return answer;
}

static void times(void)
{
    static const struct { uint32_t how, skew; enum krbrelay_answer told, untold; } rows[] = {
        { KRBRELAY_IGNORE, 0, KRBRELAY_OK, KRBRELAY_OK },
        { KRBRELAY_IF_PRESENT, 300, KRBRELAY_SKEW, KRBRELAY_OK },
        { KRBRELAY_REQUIRED, 300, KRBRELAY_SKEW, KRBRELAY_SKEW },
        { KRBRELAY_REQUIRED, UINT32_MAX, KRBRELAY_OK, KRBRELAY_SKEW },
    };
    struct krbrelay_moment at = moment(SECS + 1000000000, 0);
    uint32_t has;
    for (size_t i = 0; i < sizeof rows / sizeof rows[0]; i++) {
        struct krbrelay_demand demand = { .how_time = rows[i].how, .skew = rows[i].skew,
                                          .how_number = KRBRELAY_REQUIRED, .number = 7 };
        CHECK(opens_known(demand, safe_17, sizeof safe_17, at, &has) == rows[i].told);
        CHECK(opens_known(demand, safe_17_timeless, sizeof safe_17_timeless, at, &has)
              == rows[i].untold);
    }
}

/* A message that tells no number has the number 0 by KRBRELAY_ABSENT_IS_0, and none by
 * KRBRELAY_REQUIRED. A refusal by its number says that it tells none. */
static void absent_numbers(void)
{
    static const struct { uint32_t how; uint64_t number; enum krbrelay_answer told, untold; } rows[] = {
        { KRBRELAY_ABSENT_IS_0, 0, KRBRELAY_BADORDER, KRBRELAY_OK },
        { KRBRELAY_ABSENT_IS_0, 7, KRBRELAY_OK, KRBRELAY_BADORDER },
        { KRBRELAY_REQUIRED, 0, KRBRELAY_BADORDER, KRBRELAY_BADORDER },
        { KRBRELAY_REQUIRED, 7, KRBRELAY_OK, KRBRELAY_BADORDER },
    };
    uint32_t has;
    for (size_t i = 0; i < sizeof rows / sizeof rows[0]; i++) {
        struct krbrelay_demand demand = { .how_number = rows[i].how, .number = rows[i].number };
        CHECK(opens_known(demand, safe_17, sizeof safe_17, now, &has) == rows[i].told && has == 1);
        CHECK(opens_known(demand, safe_17_no_number, sizeof safe_17_no_number, now, &has)
              == rows[i].untold && has == 0);
    }
}

/* ---- exports */

/* The bytes of an export as the manual spells them. */
struct state { uint8_t bytes[KRBRELAY_PEER_STATE_SIZE]; };

static struct state exported(struct krbrelay_peer *peer)
{
    struct state it;
    memset(&it, 0xee, sizeof it);
    CHECK(krbrelay_peer_export(peer, it.bytes) == KRBRELAY_OK);
    return it;
}

static enum krbrelay_answer resume(struct krbrelay_peer *peer, int etype, uint32_t mode, enum end end,
                                   const struct state *from)
{
    struct krbrelay_session session = session_at(mode, end, 0);
    struct krbrelay_demand demand = demand_at(end, 0);
    return krbrelay_peer_resume(peer, etype, key_of(etype), key_size(etype), &session, &demand,
                                from->bytes);
}

static void bytes_of_exports(void)
{
    static const struct { uint32_t first; uint64_t number; struct state state; } rows[] = {
        { 0, 0, { { 0x6b, 0x72, 0x73, 1 } } },
        { 0x01020304, 0x05060708,
          { { 0x6b, 0x72, 0x73, 1, 0, 0, 0, 0, 1, 2, 3, 4, 0, 0, 0, 0, 5, 6, 7, 8 } } },
        { UINT32_MAX, NONE_LEFT, { { 0x6b, 0x72, 0x73, 1, 0, 0, 0, 0, 0xff, 0xff, 0xff, 0xff,
                                     0, 0, 0, 1, 0, 0, 0, 0 } } },
    };
    for (size_t i = 0; i < sizeof rows / sizeof rows[0]; i++) {
        struct krbrelay_peer peer = peer_at(18, KRBRELAY_PRIV, CLIENT, rows[i].first, rows[i].number);
        struct state found = exported(&peer);
        CHECK(memcmp(&found, &rows[i].state, sizeof found) == 0);
        CHECK(is_at(&peer, rows[i].first, rows[i].number));
        CHECK(resume(&peer, 18, KRBRELAY_PRIV, CLIENT, &rows[i].state) == KRBRELAY_OK);
        CHECK(is_at(&peer, rows[i].first, rows[i].number));
        krbrelay_peer_free(&peer);
    }
}

/* An end is exported after each message and freed, and goes on in another handle. */
static void going_on(int etype, uint32_t mode)
{
    struct krbrelay_peer client = peer_at(etype, mode, CLIENT, 7, 1000);
    struct krbrelay_peer server = peer_at(etype, mode, SERVER, 1000, 7);
    for (uint32_t i = 0; i < 5; i++) {
        struct krbrelay_peer again = KRBRELAY_INIT;
        struct state state;
        goes(&client, &server, CLIENT, 7 + i, 20);
        goes(&server, &client, SERVER, 1000 + i, 20);
        state = exported(&client);
        krbrelay_peer_free(&client);
        CHECK(resume(&again, etype, mode, CLIENT, &state) == KRBRELAY_OK);
        CHECK(is_at(&again, 8 + i, 1001 + i));
        client = again;
    }
    krbrelay_peer_free(&client);
    krbrelay_peer_free(&server);
}

/* The last number of each direction, after which none is left. */
static void last_numbers(int etype, uint32_t mode)
{
    static const struct state none_left = { { 0x6b, 0x72, 0x73, 1, 0, 0, 0, 1, 0, 0, 0, 0,
                                              0, 0, 0, 0, 0, 0, 0, 9 } };
    struct krbrelay_peer client = peer_at(etype, mode, CLIENT, UINT32_MAX, 9);
    struct krbrelay_peer server = peer_at(etype, mode, SERVER, 9, UINT32_MAX);
    struct message it = sealed(&client, "hi", 2);
    struct opened found = opened(&server, &it);
    struct state state = exported(&client);
    size_t size = 99;
    CHECK(found.answer == KRBRELAY_OK && tells(&found, CLIENT, UINT32_MAX));
    CHECK(is_at(&client, NONE_LEFT, 9) && is_at(&server, 9, NONE_LEFT));
    CHECK(krbrelay_peer_seal(&client, text, 2, &now, zeros, it.frame, ROOM, &size)
          == KRBRELAY_EXHAUSTED && size == 99);
    found = opened(&server, &it);
    CHECK(found.answer == KRBRELAY_BADORDER && tells(&found, CLIENT, UINT32_MAX));
    CHECK(memcmp(&state, &none_left, sizeof state) == 0);
    CHECK(resume(&client, etype, mode, CLIENT, &state) == KRBRELAY_EXHAUSTED);
    CHECK(krbrelay_peer_is_empty(&client) && client.at == NULL);
    state = exported(&server);
    CHECK(resume(&server, etype, mode, SERVER, &state) == KRBRELAY_OK);
    CHECK(is_at(&server, 9, NONE_LEFT) && opened(&server, &it).answer == KRBRELAY_BADORDER);
    krbrelay_peer_free(&server);
}

/* Bytes that are no export: another form, another version, or a number that there isn't. */
static void exports_that_are_none(void)
{
    static const struct { size_t at; uint8_t byte; } rows[] = {
        { 0, 0x6a }, { 1, 0 }, { 2, 0x74 }, { 3, 0 }, { 3, 2 }, { 4, 1 }, { 7, 2 }, { 12, 1 }, { 15, 2 },
    };
    for (size_t i = 0; i < sizeof rows / sizeof rows[0]; i++) {
        struct krbrelay_peer peer = peer_at(17, KRBRELAY_PRIV, CLIENT, 7, 9);
        struct state state = exported(&peer);
        state.bytes[rows[i].at] = rows[i].byte;
        CHECK(resume(&peer, 17, KRBRELAY_PRIV, CLIENT, &state) == KRBRELAY_ARGUMENT);
        CHECK(krbrelay_peer_is_empty(&peer));
    }
    for (int which = 0; which < 2; which++) {       /* 2^32 and one */
        struct state state = { { 0x6b, 0x72, 0x73, 1 } };
        struct krbrelay_peer peer = KRBRELAY_INIT;
        state.bytes[which == 0 ? 7 : 15] = state.bytes[which == 0 ? 11 : 19] = 1;
        CHECK(resume(&peer, 17, KRBRELAY_PRIV, CLIENT, &state) == KRBRELAY_ARGUMENT);
    }
}

/* ---- the reasons of each answer: each alone, and in their order, where with all of them the first
 * counts, and without the first the second */

struct making {
    int32_t etype;
    size_t len;
    struct krbrelay_session session;
    struct krbrelay_demand demand;
    struct state state;
};

static void wrong_demand(struct making *it) { it->demand.how_number = KRBRELAY_IF_PRESENT; }
static void wrong_first(struct making *it) { it->session.first = 1; }
static void wrong_number(struct making *it) { it->demand.number = 1; }
static void wrong_form(struct making *it) { it->state.bytes[3] = 2; }
static void wrong_expected(struct making *it) { it->state.bytes[12] = 1; }
static void none_left(struct making *it) { it->state.bytes[7] = 1; }
static void wrong_etype(struct making *it) { it->etype = 19; }
static void wrong_key(struct making *it) { it->len = 15; }
static void wrong_reserved(struct making *it) { it->session.reserved[4] = 1; }
static void wrong_mode(struct making *it) { it->session.mode = 22; }
static void wrong_address(struct making *it) { it->session.receiver.len = 41; }

struct reason { void (*make)(struct making *); enum krbrelay_answer answer; int of_resume; };

static const struct reason reasons[] = {
    { wrong_demand, KRBRELAY_ARGUMENT, 0 }, { wrong_first, KRBRELAY_ARGUMENT, 1 },
    { wrong_number, KRBRELAY_ARGUMENT, 1 }, { wrong_form, KRBRELAY_ARGUMENT, 1 },
    { wrong_expected, KRBRELAY_ARGUMENT, 1 }, { none_left, KRBRELAY_EXHAUSTED, 1 },
    { wrong_etype, KRBRELAY_ETYPE, 0 }, { wrong_key, KRBRELAY_KEY_SIZE, 0 },
    { wrong_reserved, KRBRELAY_ARGUMENT, 0 }, { wrong_mode, KRBRELAY_MODE, 0 },
    { wrong_address, KRBRELAY_ADDRESS, 0 }, { NULL, KRBRELAY_OK, 0 },
};

enum { REASONS = sizeof reasons / sizeof reasons[0] };

/* A handle that holds a peer is made anew, with each reason from this one on, up to another. */
static enum krbrelay_answer made_with(size_t from, size_t to, int resumes, struct krbrelay_peer *peer)
{
    struct making it = { 17, 16, session_at(KRBRELAY_PRIV, CLIENT, 0), demand_at(CLIENT, 0),
                         { { 0x6b, 0x72, 0x73, 1 } } };
    for (size_t i = from; i < to; i++)
        if (reasons[i].make != NULL && (resumes || !reasons[i].of_resume))
            reasons[i].make(&it);
    *peer = peer_at(18, KRBRELAY_PRIV, CLIENT, 7, 9);
    return resumes ? krbrelay_peer_resume(peer, it.etype, keys[0], it.len, &it.session, &it.demand,
                                          it.state.bytes)
                   : krbrelay_peer_new(peer, it.etype, keys[0], it.len, &it.session, &it.demand);
}

static void reasons_of_makers(void)
{
    for (size_t i = 0; i < REASONS; i++)
        for (int which = 2 * reasons[i].of_resume; which < 4; which++) {
            struct krbrelay_peer peer;
            size_t to = which & 1 ? i + 1 : REASONS;
            CHECK(made_with(i, to, which >> 1, &peer) == reasons[i].answer);
            CHECK(krbrelay_peer_is_empty(&peer) == (reasons[i].answer != KRBRELAY_OK));
            krbrelay_peer_free(&peer);
        }
}

/* ---- several messages in one call */

/* So many messages of rising size, each with a moment and a confounder of its own. */
static void make_messages(struct krbrelay_unsealed *messages, size_t count)
{
    for (size_t i = 0; i < count; i++) {
        messages[i] = (struct krbrelay_unsealed){ .user_data = some_data + i, .user_data_len = 37 * i,
                                                  .at = moment(SECS + i, (uint32_t)i) };
        memset(messages[i].confounder, (int)i + 1, sizeof messages[i].confounder);
    }
}

static struct message sealed_of(struct krbrelay_peer *by, const struct krbrelay_unsealed *it)
{
    struct message made = { { 0 }, 0 };
    CHECK(krbrelay_peer_seal(by, it->user_data, it->user_data_len, &it->at, it->confounder, made.frame, ROOM,
                             &made.size) == KRBRELAY_OK);
    return made;
}

/* Sealed in one call they are the frames that another peer seals one by one, and the other end opens them in turn.
 * What this end expects stays, and so does what follows the frames and the sizes. */
static void sealed_together(int etype, uint32_t mode, size_t count)
{
    static uint8_t packed[MOST * ROOM];
    struct krbrelay_unsealed messages[MOST];
    struct krbrelay_peer many = peer_at(etype, mode, CLIENT, 7, 9), single = peer_at(etype, mode, CLIENT, 7, 9);
    struct krbrelay_peer server = peer_at(etype, mode, SERVER, 9, 7);
    size_t sizes[MOST], unwritten, at = 0, failed = 99;
    make_messages(messages, count);
    memset(&unwritten, 0xee, sizeof unwritten);
    memset(sizes, 0xee, sizeof sizes);
    memset(packed, 0xee, sizeof packed);
    CHECK(krbrelay_peer_seal_many(&many, messages, count, packed, sizeof packed, sizes, &failed) == KRBRELAY_OK);
    CHECK(failed == 99 && is_at(&many, 7 + count, 9));
    for (size_t i = 0; i < count; i++) {
        struct message it = sealed_of(&single, &messages[i]);
        CHECK(sizes[i] == it.size && memcmp(packed + at, it.frame, it.size) == 0);
        CHECK(opened(&server, &it).answer == KRBRELAY_OK && memcmp(text, some_data + i, 37 * i) == 0);
        at += it.size;
    }
    CHECK(packed[at] == 0xee && (count == MOST || sizes[count] == unwritten));
    CHECK(is_at(&single, 7 + count, 9) && is_at(&server, 9, 7 + count));
    krbrelay_peer_free(&many);
    krbrelay_peer_free(&single);
    krbrelay_peer_free(&server);
}

/* Eight at a time, four, and one by one. */
static void several_messages(int etype, uint32_t mode)
{
    static const size_t counts[] = { 0, 1, 2, 3, 4, 5, 7, 8, 9, 12, 13, 15, 16, 17, 24, 31, 63, MOST };
    for (size_t i = 0; i < sizeof counts / sizeof counts[0]; i++)
        sealed_together(etype, mode, counts[i]);
}

/* One call seals the last two numbers, after which none is left; of three it seals none. */
static void last_numbers_of_several(int etype, uint32_t mode)
{
    static uint8_t frames[3 * ROOM];
    struct krbrelay_peer peer = peer_at(etype, mode, CLIENT, UINT32_MAX - 1, 9);
    struct krbrelay_unsealed messages[3];
    size_t sizes[MOST] = { 99 }, failed = 99;
    make_messages(messages, 3);
    CHECK(krbrelay_peer_seal_many(&peer, messages, 3, frames, sizeof frames, sizes, &failed) == KRBRELAY_EXHAUSTED);
    CHECK(failed == 2 && sizes[0] == 99 && is_at(&peer, UINT32_MAX - 1, 9));
    CHECK(krbrelay_peer_seal_many(&peer, messages, 2, frames, sizeof frames, sizes, &failed) == KRBRELAY_OK);
    CHECK(failed == 2 && is_at(&peer, NONE_LEFT, 9));
    CHECK(krbrelay_peer_seal_many(&peer, messages, 1, frames, sizeof frames, sizes, &failed) == KRBRELAY_EXHAUSTED);
    CHECK(failed == 0 && is_at(&peer, NONE_LEFT, 9));
    failed = 99;
    CHECK(krbrelay_peer_seal_many(&peer, NULL, 0, NULL, 0, sizes, &failed) == KRBRELAY_OK);
    CHECK(failed == 99 && is_at(&peer, NONE_LEFT, 9));
    krbrelay_peer_free(&peer);
}

/* A handle that holds nothing, which is freed twice. */
static void nothing_held(void)
{
    struct krbrelay_peer peer = KRBRELAY_INIT;
    struct state state;
    uint64_t next = 99, expected = 99;
    size_t size = 99;
    memset(&state, 0xee, sizeof state);
    CHECK(krbrelay_peer_is_empty(&peer));
    CHECK(krbrelay_peer_state(&peer, &next, &expected) == KRBRELAY_EMPTY);
    CHECK(krbrelay_peer_export(&peer, state.bytes) == KRBRELAY_EMPTY);
    CHECK(krbrelay_peer_seal_now(&peer, text, 2, text + 100, 1000, &size) == KRBRELAY_EMPTY);
    CHECK(next == 99 && expected == 99 && size == 99);
    CHECK(state.bytes[0] == 0xee && state.bytes[19] == 0xee);
    krbrelay_peer_free(&peer);
    krbrelay_peer_free(&peer);
    CHECK(peer.at == NULL && peer.count == 0);
}

/* Between any two calls a handle may be moved, with the old place overwritten. */
static void handles_that_move(void)
{
    struct krbrelay_peer client = peer_at(18, KRBRELAY_PRIV, CLIENT, 7, 9);
    struct krbrelay_peer server = peer_at(18, KRBRELAY_PRIV, SERVER, 9, 7);
    for (uint32_t i = 0; i < 3; i++) {
        struct krbrelay_peer moved = client;
        memset(&client, 0xee, sizeof client);
        goes(&moved, &server, CLIENT, 7 + i, 2);
        client = moved;
        memset(&moved, 0xee, sizeof moved);
        goes(&server, &client, SERVER, 9 + i, 2);
    }
    krbrelay_peer_free(&client);
    krbrelay_peer_free(&server);
}

/* ---- receivers, with the number that came */

static struct krbrelay_receiver receiver_at(int etype, uint32_t mode, uint64_t number)
{
    struct krbrelay_expect expect = expect_of(mode);
    struct krbrelay_receiver r = KRBRELAY_INIT;
    IS(krbrelay_receiver_new(&r, etype, key_of(etype), key_size(etype), &expect, number, 0));
    return r;
}

/* The answer and the number of taking a frame; the kind and the size are those of krbrelay_receiver_take. */
static enum krbrelay_answer takes(struct krbrelay_receiver *r, const uint8_t *frame, size_t len,
                                  struct krbrelay_moment at, uint64_t *number)
{
    uint32_t kind = 99;
    size_t size = 99;
    enum krbrelay_answer answer;
    *number = 5;
    memset(text, 0xee, sizeof text);
    answer = krbrelay_receiver_take_numbered(r, frame, len, &at, &kind, text, sizeof text, &size,
                                             number);
    CHECK(answer == KRBRELAY_OK ? (kind == KRBRELAY_TEXT && size == 2 && memcmp(text, "hi", 2) == 0)
                                : (kind == 99 && size == 99 && text[0] == 0xee));
    return answer;
}

/* The frames of frames.h, which are the text "hi" at number 7, at each number that may be demanded. */
static void numbers_that_came(int etype, uint32_t mode)
{
    static const struct { uint64_t demanded; enum krbrelay_answer answer; uint64_t number; } rows[] = {
        { 7, KRBRELAY_OK, 7 }, { 8, KRBRELAY_BADORDER, 7 }, { 6, KRBRELAY_BADORDER, 7 },
        { 0, KRBRELAY_BADORDER, 7 }, { NONE_LEFT, KRBRELAY_BADORDER, 7 },
    };
    const uint8_t *frame = mode == KRBRELAY_SAFE ? (etype == 17 ? safe_17 : safe_18)
                                                 : (etype == 17 ? priv_17 : priv_18);
    size_t len = mode == KRBRELAY_SAFE ? sizeof safe_17 : sizeof priv_17;
    for (size_t i = 0; i < sizeof rows / sizeof rows[0]; i++) {
        struct krbrelay_receiver r = receiver_at(etype, mode, rows[i].demanded);
        uint64_t number, expected = 99;
        uint32_t closed = 99;
        CHECK(takes(&r, frame, len, now, &number) == rows[i].answer && number == rows[i].number);
        CHECK(krbrelay_receiver_state(&r, &expected, &closed) == KRBRELAY_OK && closed == 0);
        CHECK(expected == rows[i].demanded + (rows[i].answer == KRBRELAY_OK));
        CHECK(takes(&r, frame, len, moment(SECS + 301, USEC), &number) == KRBRELAY_SKEW && number == 5);
        krbrelay_receiver_free(&r);
    }
}

/* A number that nothing makes authentic isn't told, and one that isn't there. */
static void numbers_that_are_not_told(void)
{
    struct krbrelay_receiver r = receiver_at(17, KRBRELAY_SAFE, 8), empty = KRBRELAY_INIT;
    uint8_t changed[sizeof safe_17];
    uint64_t number;
    memcpy(changed, safe_17, sizeof changed);
    changed[sizeof changed - 1] ^= 1;
    CHECK(takes(&r, changed, sizeof changed, now, &number) == KRBRELAY_BADORDER && number == UINT64_MAX);
    CHECK(takes(&r, safe_17_no_number, sizeof safe_17_no_number, now, &number) == KRBRELAY_BADORDER);
    CHECK(number == UINT64_MAX);
    CHECK(takes(&r, safe_17, sizeof safe_17, now, &number) == KRBRELAY_BADORDER && number == 7);
    CHECK(takes(&empty, safe_17, sizeof safe_17, now, &number) == KRBRELAY_EMPTY && number == 5);
    CHECK(takes(&r, safe_17, sizeof safe_17 - 1, now, &number) == KRBRELAY_MALFORMED && number == 5);
    CHECK(takes(&r, safe_17, sizeof safe_17, moment(SECS, 1000000), &number) == KRBRELAY_MOMENT);
    CHECK(number == 5);
    krbrelay_receiver_free(&r);
    r = receiver_at(17, KRBRELAY_SAFE, 7);
    CHECK(takes(&r, changed, sizeof changed, now, &number) == KRBRELAY_MODIFIED && number == 5);
    CHECK(takes(&r, safe_17, sizeof safe_17, now, &number) == KRBRELAY_OK && number == 7);
    krbrelay_receiver_free(&r);
}

int main(int count, char **words)
{
    check_only(1, count, words);
    for (size_t i = 0; i < sizeof some_data; i++)
        some_data[i] = (uint8_t)(i * 11);
    for (int etype = 17; etype <= 18; etype++)
        for (uint32_t mode = KRBRELAY_SAFE; mode <= KRBRELAY_PRIV; mode++) {
            RUN(both_directions(etype, mode));
            RUN(repeats_and_gaps(etype, mode));
            RUN(other_refusals(etype, mode, 7));
            RUN(other_refusals(etype, mode, 8));
            RUN(reflection(etype, mode));
            RUN(going_on(etype, mode));
            RUN(last_numbers(etype, mode));
            RUN(several_messages(etype, mode));
            RUN(last_numbers_of_several(etype, mode));
            RUN(numbers_that_came(etype, mode));
        }
    RUN(times());
    RUN(absent_numbers());
    RUN(bytes_of_exports());
    RUN(exports_that_are_none());
    RUN(reasons_of_makers());
    RUN(nothing_held());
    RUN(handles_that_move());
    RUN(numbers_that_are_not_told());
    return check_status("peer");
}
