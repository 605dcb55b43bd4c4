/* Integers beyond 8, 16 and 32 bits: none is taken for what its lower bits say. */
#include "cases.h"
#include "session.h"

#include <string.h>

enum { SIZE = 20 };
#define YEAR_10000 UINT64_C(253402300800)

static struct given from;

static void anew(void) { given = from; }

static void try_64_bits(uint64_t beyond)
{
    static const char *const openers[] = { "opener_unseal", "opener_unseal_in_place", "opener_open" };
    for (int i = 0; i < 3; i++) {
        anew();
        given.number += beyond;
        given.demand.number += beyond;
        try_call(call_of(openers[i]), "number beyond", KRBRELAY_BADORDER);
    }
    given.demand.how_number = KRBRELAY_ABSENT_IS_0;
    try_call(call_of("opener_open"), "number beyond, absent is 0", KRBRELAY_BADORDER);
    anew();
    given.expected += beyond;
    given.demand.number += beyond;
    try_call(call_of("receiver_new"), "number beyond", beyond + NUMBER > UINT64_C(1) << 32 ? KRBRELAY_ARGUMENT : KRBRELAY_OK);
    try_call(call_of("peer_new"), "number beyond", beyond + NUMBER > UINT64_C(1) << 32 ? KRBRELAY_ARGUMENT : KRBRELAY_OK);
    anew();
    given.body_len += (size_t)beyond;
    try_call(call_of("sealer_frame_size"), "length beyond", given.body_len > KRBRELAY_USER_DATA_LIMIT ? KRBRELAY_TOO_LONG : KRBRELAY_OK);
    anew();
    given.at.seconds += beyond;
    try_call(call_of("opener_unseal"), "seconds beyond", given.at.seconds >= YEAR_10000 ? KRBRELAY_MOMENT
             : beyond <= given.expect.skew ? KRBRELAY_OK : KRBRELAY_SKEW);
    anew();
    given.at.seconds = beyond > YEAR_10000 ? beyond : beyond + YEAR_10000;
    try_call(call_of("sealer_seal"), "seconds beyond", KRBRELAY_MOMENT);
}

/* Fields of 32 bits of what makes a handle, and of a record. */
static void try_makers(uint32_t beyond)
{
    anew();
    given.session.mode += beyond;
    given.expect.mode += beyond;
    try_call(call_of("sealer_new"), "mode beyond", KRBRELAY_MODE);
    try_call(call_of("opener_new"), "mode beyond", KRBRELAY_MODE);
    try_call(call_of("peer_new"), "mode beyond", KRBRELAY_MODE);
    anew();
    given.etype = (int32_t)((uint32_t)given.etype + beyond);
    try_call(call_of("sealer_new"), "etype beyond", KRBRELAY_ETYPE);
    try_call(call_of("receiver_new"), "etype beyond", KRBRELAY_ETYPE);
    anew();
    given.session.sender.len += beyond;
    try_call(call_of("sealer_new"), "address beyond", KRBRELAY_ADDRESS);
    anew();
    given.kind += beyond;
    try_call(call_of("sealer_seal_record"), "kind beyond", KRBRELAY_RECORD);
    anew();
    given.closed = beyond;
    try_call(call_of("receiver_take"), "closed beyond", KRBRELAY_AFTER_CLOSE);
}

static void try_demands(uint32_t beyond)
{
    uint32_t *hows[] = { &given.demand.how_sender, &given.demand.how_receiver, &given.demand.how_time,
                         &given.demand.how_number };
    for (int i = 0; i < 4; i++) {
        anew();
        *hows[i] += beyond;
        try_call(call_of("opener_open"), "how beyond", KRBRELAY_ARGUMENT);
    }
    anew();
    given.demand.receiver.kind = (int32_t)(2 + beyond);
    try_call(call_of("opener_open"), "address kind beyond", KRBRELAY_BADADDR);
    anew();
    given.demand.skew = beyond;
    given.at.seconds += (uint64_t)beyond + 1;
    try_call(call_of("opener_open"), "skew beyond", KRBRELAY_SKEW);
    given.at.seconds--;
    try_call(call_of("opener_open"), "skew beyond", KRBRELAY_OK);
}

static void try_expectations(uint32_t beyond)
{
    anew();
    given.at_handle.sender.kind = (int32_t)(2 + beyond);
    try_call(call_of("opener_unseal"), "address kind beyond", KRBRELAY_BADADDR);
    anew();
    given.expect.require_receiver = beyond;
    given.expect.skew = beyond;
    given.at.seconds += beyond;
    try_call(call_of("opener_unseal"), "skew beyond", KRBRELAY_OK);
    given.at.seconds++;
    try_call(call_of("opener_unseal"), "skew beyond", KRBRELAY_SKEW);
    anew();
    given.at.microseconds = beyond < 1000000 ? 1000000 + beyond : beyond;
    try_call(call_of("opener_unseal"), "microseconds beyond", KRBRELAY_MOMENT);
}

static void try_sent(uint64_t beyond)
{
    struct krbrelay_sending it;
    uint32_t counts = 7;
    is_so(krbrelay_sending_load(&it, beyond + 3, beyond + 1, beyond + 5, 1, 0, 0) == KRBRELAY_OK
          && it.progress.next == beyond + 3 && it.progress.at == beyond + 5, "an end of numbers beyond");
    is_so(krbrelay_sending_confirmed(&it, beyond + 1, 9, 0, &counts) == KRBRELAY_OK && counts == 0
          && krbrelay_sending_confirmed(&it, 1, beyond + 9, 0, &counts) == KRBRELAY_OK && counts == 0
          && krbrelay_sending_confirmed(&it, beyond + 1, beyond + 9, 0, &counts) == KRBRELAY_OK && counts == 1
          && it.progress.at == beyond + 9, "an offset beyond");
}

static void try_received(uint64_t beyond)
{
    struct krbrelay_row row = { .number = beyond + 5 };
    struct krbrelay_receiving it;
    struct krbrelay_seen seen = { .opened = 5, .has_opened = 1 };
    uint32_t outcome = 99, low = (uint32_t)beyond, owed = low + 3;
    krbrelay_receiving_load(&it, &row, 0);
    is_so(krbrelay_receiving_take(&it, NULL, 0, &seen, &outcome) == KRBRELAY_OK
          && outcome == KRBRELAY_OUTCOME_REPEAT, "a demanded number beyond");
    seen.opened = beyond + 6;
    is_so(krbrelay_receiving_take(&it, NULL, 0, &seen, &outcome) == KRBRELAY_OK
          && outcome == KRBRELAY_OUTCOME_EARLY, "a frame's number beyond");
    if (low == 0)
        return;
    seen.has_opened = low;
    is_so(krbrelay_receiving_take(&it, NULL, 0, &seen, &outcome) == KRBRELAY_OK
          && outcome == KRBRELAY_OUTCOME_EARLY, "whether it opens, beyond");
    seen.reserved = low;
    is_so(krbrelay_receiving_take(&it, NULL, 0, &seen, &outcome) == KRBRELAY_ARGUMENT, "what is in reserve beyond");
    seen.reserved = 0;
    it.owed = owed;
    is_so(krbrelay_receiving_take(&it, NULL, 0, &seen, &outcome) == (owed > 3 ? KRBRELAY_ARGUMENT : KRBRELAY_OK),
          "a receipt beyond");
    it.owed = 0;
    seen.accepted = low;
    is_so(krbrelay_receiving_take(&it, NULL, 0, &seen, &outcome) == KRBRELAY_OK
          && outcome == KRBRELAY_OUTCOME_ACCEPTED && it.drafted.number == beyond + 6, "accepted beyond");
}

static void try_progress(uint64_t beyond)
{
    struct krbrelay_progress it;
    uint32_t counts = 7;
    uint64_t again = 0;
    is_so(krbrelay_progress_new(&it, beyond + 3, beyond + 1, beyond + 5) == KRBRELAY_OK && it.next == beyond + 3
          && it.carried == beyond + 1 && it.at == beyond + 5, "a progress of numbers beyond");
    is_so(krbrelay_progress_publish(&it, 2) == KRBRELAY_OK && it.sent == beyond + 3
          && krbrelay_progress_publish(&it, beyond) == KRBRELAY_ARGUMENT, "publishing so many beyond");
    is_so(krbrelay_progress_confirm(&it, 1, beyond + 9, &counts) == KRBRELAY_OK && counts == 0
          && krbrelay_progress_confirm(&it, beyond + 1, 5, &counts) == KRBRELAY_OK && counts == 0
          && krbrelay_progress_confirm(&it, beyond + 1, beyond + 9, &counts) == KRBRELAY_OK && counts == 1
          && it.at == beyond + 9 && it.carried == beyond + 2, "a confirmation beyond");
    is_so(krbrelay_progress_store(&it, beyond) == (it.next > UINT64_MAX - beyond ? KRBRELAY_ARGUMENT : KRBRELAY_OK),
          "storing so many beyond");
    is_so(krbrelay_progress_rewind(&it, &again) == KRBRELAY_OK && again == 1, "a rewind beyond");
}

static void try_windows(uint64_t beyond)
{
    struct krbrelay_window window;
    krbrelay_window_new(&window, NUMBER);
    is_so(krbrelay_window_take(&window, beyond + NUMBER) == KRBRELAY_OK && window.highest == beyond + NUMBER
          && krbrelay_window_take(&window, beyond + NUMBER) == KRBRELAY_REPEATED
          && krbrelay_window_take(&window, NUMBER) == KRBRELAY_TOO_OLD, "a window beyond");
}

void try_integers(uint32_t mode, int32_t etype)
{
    static const int bits[] = { 8, 16, 31, 32, 33, 48, 63 };
    given_anew(mode, etype, SIZE);
    given.gives = user_data;
    given.gives_len = SIZE;
    given.frame_len = sealed(0, user_data, SIZE, frame);
    from = given;
    for (size_t i = 0; i < sizeof bits / sizeof *bits; i++) {
        uint64_t beyond = UINT64_C(1) << bits[i];
        try_64_bits(beyond);
        try_sent(beyond);
        try_received(beyond);
        try_progress(beyond);
        try_windows(beyond);
        if (bits[i] >= 32)
            continue;
        try_makers((uint32_t)beyond);
        try_demands((uint32_t)beyond);
        try_expectations((uint32_t)beyond);
    }
}
