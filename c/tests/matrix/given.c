#include "given.h"
#include "blocks.h"
#include "session.h"

#include <string.h>

enum { NOT_TOLD = 77, UNUSED_BYTE = 0x44, BEYOND = 600 };

struct given given;
struct told told;
struct handles handles;
uint8_t frame[BIG], out[BIG];

static const struct told not_told = { .size = NOT_TOLD, .kind = NOT_TOLD, .closed = NOT_TOLD, .number = NOT_TOLD,
                                      .next = NOT_TOLD, .carried = { .seconds = NOT_TOLD },
                                      .header = { .kind = NOT_TOLD }, .state = { NOT_TOLD } };

void given_anew(uint32_t mode, int32_t etype, size_t size)
{
    given = (struct given){
        .mode = mode, .etype = etype, .size = size, .kind = KRBRELAY_TEXT, .messages = 1, .room = BIG,
        .key_len = key_size(etype), .number = NUMBER, .expected = NUMBER, .body = user_data, .body_len = size,
        .at = moment(SECS, USEC), .session = session_of(mode, NUMBER), .expect = expect_of(mode),
        .demand = demand_of(1, 255, NUMBER)
    };
    tell_receiver(&given.session);
    given.at_handle.mode = mode;
    given.at_handle.etype = etype;
    given.at_handle.number = NUMBER;
    given.at_handle.sender = host(1);
    blocks_data_are_secret(mode == KRBRELAY_PRIV);
}

static uint32_t sealer_made(struct krbrelay_sealer *to, uint32_t first)
{
    struct krbrelay_session session = session_of(given.at_handle.mode, first);
    tell_receiver(&session);
    return krbrelay_sealer_new(to, given.at_handle.etype, key, key_size(given.at_handle.etype), &session);
}

static uint32_t peer_made(uint32_t first)
{
    struct krbrelay_session session = session_of(given.at_handle.mode, first);
    struct krbrelay_demand demand = demand_of(1, 255, given.at_handle.number);
    tell_receiver(&session);
    demand.sender = given.at_handle.sender;
    return krbrelay_peer_new(&handles.peer, given.at_handle.etype, key, key_size(given.at_handle.etype),
                             &session, &demand);
}

/* What openers and receivers expect. */
static struct krbrelay_expect expected_by_handle(void)
{
    struct krbrelay_expect expect = given.expect;
    expect.mode = given.at_handle.mode;
    expect.sender = given.at_handle.sender;
    return expect;
}

static uint32_t handle_made(enum uses uses, uint32_t first)
{
    struct krbrelay_expect expect = expected_by_handle();
    size_t len = key_size(given.at_handle.etype);
    switch (uses) {
    case SEALER: return sealer_made(&handles.sealer, first);
    case OPENER: return krbrelay_opener_new(&handles.opener, given.at_handle.etype, key, len, &expect);
    case RECEIVER: return krbrelay_receiver_new(&handles.receiver, given.at_handle.etype, key, len, &expect,
                                                given.at_handle.number, given.closed);
    case PEER: return peer_made(first);
    case NO_HANDLE: break;
    }
    return KRBRELAY_OK;
}

/* Has a sealer or a peer seal its last number. */
static uint32_t last_number_sealed(void)
{
    static uint8_t to[KRBRELAY_FRAME_SIZE(1)];
    struct krbrelay_moment at = moment(SECS, USEC);
    size_t size = 0;
    return handles.peer.count != 0
        ? krbrelay_peer_seal(&handles.peer, key, 1, &at, confounder, to, sizeof to, &size)
        : krbrelay_sealer_seal(&handles.sealer, key, 1, &at, confounder, to, sizeof to, &size);
}

static void wipe(void)
{
    if (handles.sealer.count != 0)
        krbrelay_sealer_wipe(&handles.sealer);
    if (handles.opener.count != 0)
        krbrelay_opener_wipe(&handles.opener);
}

void handles_made(enum uses uses, int makes_it)
{
    uint32_t first = given.at_handle.is_exhausted ? UINT32_MAX : NUMBER, answer = KRBRELAY_OK;
    told = not_told;
    if (given.at_handle.is_empty || (makes_it && !given.at_handle.holds_another))
        return;
    answer = handle_made(uses, first);
    if (answer == KRBRELAY_OK && given.at_handle.is_exhausted)
        answer = last_number_sealed();
    if (answer == KRBRELAY_OK && given.at_handle.is_wiped)
        wipe();
}

size_t handles_held(void)
{
    return handles.sealer.count + handles.opener.count + handles.receiver.count + handles.peer.count;
}

long handles_ended(void)
{
    krbrelay_sealer_free(&handles.sealer);
    krbrelay_opener_free(&handles.opener);
    krbrelay_receiver_free(&handles.receiver);
    krbrelay_peer_free(&handles.peer);
    return blocks_left();
}

uint64_t handles_numbers(void)
{
    uint64_t next = 0, expected = 0;
    uint32_t closed = 0, answer = KRBRELAY_OK;
    if (handles.sealer.count != 0)
        answer = krbrelay_sealer_next(&handles.sealer, &next);
    if (handles.receiver.count != 0)
        answer = krbrelay_receiver_state(&handles.receiver, &expected, &closed);
    if (handles.peer.count != 0)
        answer = krbrelay_peer_state(&handles.peer, &next, &expected);
    return answer == KRBRELAY_OK ? next << 33 ^ expected << 1 ^ closed : UINT64_MAX;
}

static size_t looked_at(void)
{
    size_t most = given.size + BEYOND;
    return most < BIG ? most : BIG;
}

void out_anew(void) { memset(out, UNUSED_BYTE, looked_at()); }

void out_begun(void) { memset(out, UNUSED_BYTE, sizeof out); }

int nothing_is_told(int may_tell_number)
{
    for (size_t i = 0; i < looked_at(); i++)
        if (out[i] != UNUSED_BYTE)
            return 0;
    if (may_tell_number) {
        told.number = not_told.number;
        told.carried = not_told.carried;
    }
    return memcmp(&told, &not_told, sizeof told) == 0;
}

size_t sealed(uint32_t kind, const uint8_t *bytes, size_t len, uint8_t *to)
{
    struct krbrelay_sealer sealer = KRBRELAY_INIT;
    struct krbrelay_moment at = moment(SECS, USEC);
    struct krbrelay_session session = session_of(given.mode, NUMBER);
    size_t size = 0;
    uint32_t answer;
    tell_receiver(&session);
    answer = krbrelay_sealer_new(&sealer, given.etype, key, key_size(given.etype), &session);
    if (answer == KRBRELAY_OK)
        answer = kind != 0
            ? krbrelay_sealer_seal_record(&sealer, kind, bytes, len, &at, confounder, to, BIG, &size)
            : krbrelay_sealer_seal(&sealer, bytes, len, &at, confounder, to, BIG, &size);
    krbrelay_sealer_free(&sealer);
    return answer == KRBRELAY_OK ? size : 0;
}
