/* How many allocations calls take: at least so many, or the allocator isn't the one that they use; and for
 * a batch none for each text. And several messages in one call. */
#include "cases.h"

#include <string.h>

enum { SIZE = 20, TEXTS = 1000, TEXT = 60 };

static long asked_by(const char *name, uint32_t mode, int32_t etype)
{
    struct call *call = call_of(name);
    given_anew(mode, etype, SIZE);
    given.gives = user_data;
    given.gives_len = SIZE;
    given.gives_kind = KRBRELAY_TEXT;
    if (call->does == OPENS)
        given.frame_len = sealed(call->of == OF_RECORDS ? KRBRELAY_TEXT : 0, user_data, SIZE, frame);
    try_call(call, "least", KRBRELAY_OK);
    return tried_asked();
}

static void at_least(long least, uint32_t mode, int32_t etype, const char *const *names)
{
    long asked = 0;
    for (; *names != NULL; names++)
        asked += asked_by(*names, mode, etype);
    is_so(asked >= least, "so many allocations at least");
}

/* A batch of 1,000 texts, sealed and taken. */
static void try_batch(uint32_t mode, int32_t etype)
{
    static uint8_t batch[TEXTS * (TEXT + 4)];
    size_t size = 0;
    long asked;
    for (int i = 0; i < TEXTS; i++)
        is_so(krbrelay_batch_add(batch, sizeof batch, &size, user_data, TEXT) == KRBRELAY_OK, "a text fits");
    given_anew(mode, etype, size);
    given.kind = KRBRELAY_BATCH;
    given.body = batch;
    try_call(call_of("sealer_seal_record"), "1,000 texts", KRBRELAY_OK);
    asked = tried_asked();
    given.frame_len = sealed(KRBRELAY_BATCH, batch, size, frame);
    given.gives = batch;
    given.gives_len = size;
    given.gives_kind = KRBRELAY_BATCH;
    try_call(call_of("receiver_take"), "1,000 texts", KRBRELAY_OK);
    is_so(asked + tried_asked() <= 6, "none is for a text");
}

/* Messages in one call: eight side by side, four, and one at a time. */
static void try_many(const char *name, uint32_t mode, int32_t etype)
{
    static const unsigned counts[] = { 2, 4, 5, 8, 13, KRBRELAY_MOST_MESSAGES };
    for (size_t i = 0; i < sizeof counts / sizeof *counts; i++) {
        given_anew(mode, etype, SIZE);
        given.messages = counts[i];
        try_call(call_of(name), "several messages", KRBRELAY_OK);
    }
    given_anew(mode, etype, SIZE);
    given.messages = KRBRELAY_MOST_MESSAGES;
    given.room = KRBRELAY_MOST_MESSAGES * SIZE;
    try_call(call_of(name), "several messages, room for some", KRBRELAY_ROOM);
}

void try_least(uint32_t mode, int32_t etype)
{
    static const char *const session[] = { "sealer_new", "opener_new", "sealer_seal", "message_header",
                                           "opener_unseal", NULL };
    static const char *const record[] = { "sealer_seal_record", "receiver_new", "receiver_take", "opener_open",
                                          "opener_unseal_in_place", NULL };
    static const char *const peer[] = { "peer_new", "peer_seal", "peer_open", NULL };
    static const char *const resumed[] = { "peer_resume", "receiver_take_numbered", "receiver_take_many",
                                           NULL };
    at_least(8, mode, etype, session);
    at_least(8, mode, etype, record);
    at_least(5, mode, etype, peer);
    at_least(3, mode, etype, resumed);
    try_batch(mode, etype);
    try_many("sealer_seal_many", mode, etype);
    try_many("peer_seal_many", mode, etype);
}
