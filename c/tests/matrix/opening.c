/* Cases of the calls that open a message. */
#include "cases.h"
#include "session.h"

#include <string.h>

static uint8_t content[BIG];        /* of the frame: the letter of a text and the text, or plain data */

/* ---- changes of what is given */

static void room_exact(void) { given.room = given.gives_len; }
static void room_less_1(void) { given.room = given.gives_len - 1; }
static void late(void) { given.at.seconds += 1000; }
static void other_sender(void) { given.at_handle.sender = given.demand.sender = host(3); }
static void changed(void) { frame[given.frame_len - 1] ^= 1; }
static void cut(void) { given.frame_len--; }
static void longer(void) { given.frame_len++; }
static void closed(void) { given.closed = 1; }

/* Another version of the protocol: pvno, field 0 of both messages (RFC 4120 sections 5.6.1 and 5.7.1). */
static void other_version(void)
{
    static const uint8_t field[] = { 0xa0, 3, 2, 1 };
    uint8_t *at = frame;
    while (memcmp(at, field, sizeof field) != 0)
        at++;
    at[sizeof field] ^= 5 ^ 6;
}

static void number_of(uint64_t number)
{
    given.number = given.demand.number = given.at_handle.number = number;
}

static void number_8(void) { number_of(NUMBER + 1); }
static void number_2_32(void) { number_of(UINT64_C(1) << 32); }
static void other_mode(void) { given.at_handle.mode = 41 - given.mode; }
static void other_etype(void) { given.at_handle.etype = 35 - given.etype; }

/* ---- the reasons, the last ones of a call first: those are tried at each size */

static const struct reason last_reasons[] = {
    { "done", KRBRELAY_OK, as_given },
    { "room less 1", KRBRELAY_ROOM, room_less_1 },
};

static const struct reason reasons[] = {
    { "room exact", KRBRELAY_OK, room_exact },
    { "number 8", KRBRELAY_BADORDER, number_8 },
    { "room 0", KRBRELAY_ROOM, room_0 },
    { "number 2^32", KRBRELAY_BADORDER, number_2_32 },
    { "late", KRBRELAY_SKEW, late },
    { "other sender", KRBRELAY_BADADDR, other_sender },
    { "other mode", KRBRELAY_MSG_TYPE, other_mode },
    { "other version", KRBRELAY_BADVERSION, other_version },
    { "cut", KRBRELAY_MALFORMED, cut },
    { "longer", KRBRELAY_MALFORMED, longer },
    { "moment", KRBRELAY_MOMENT, moment_of_a_million },
    { "reserved", KRBRELAY_ARGUMENT, reserved_of_moment },
    { "empty", KRBRELAY_EMPTY, empty },
};

static const struct reason of_safe[] = {
    { "changed", KRBRELAY_MODIFIED, changed },
    { "other etype", KRBRELAY_INAPP_CKSUM, other_etype },
};

static const struct reason of_priv[] = {
    { "changed", KRBRELAY_BAD_INTEGRITY, changed },
    { "other etype", KRBRELAY_ETYPE_NOSUPP, other_etype },
};

static const struct reason of_openers[] = { { "wiped", KRBRELAY_WIPED, wiped } };
static const struct reason of_receivers[] = { { "closed", KRBRELAY_AFTER_CLOSE, closed } };

/* ---- frames */

/* Has `frame` and `given` be of a text of so many bytes, or of plain user data beyond the longest. */
static void give_frame(const struct call *call, size_t size)
{
    size_t letter = size < KRBRELAY_USER_DATA_LIMIT;
    content[0] = 'D';
    memcpy(content + letter, user_data, size);
    given.frame_len = sealed(0, content, size + letter, frame);
    given.gives = content;
    given.gives_len = size + letter;
    if (call->of == OF_RECORDS) {
        given.gives = user_data;
        given.gives_len = size;
        given.gives_kind = KRBRELAY_TEXT;
    }
    is_so(given.frame_len != 0, "a frame is sealed");
}

/* Whether a reason is one of this call and this size. */
static int is_of(const struct reason *reason, const struct call *call)
{
    int of_room = reason->change == room_exact || reason->change == room_less_1 || reason->change == room_0;
    if (of_room && (call->is_in_place || given.gives_len == 0))
        return 0;
    return !of_room || call->uses != NO_HANDLE;
}

static void try_reasons(struct call *call, const struct given *from, const struct reason *of, size_t count)
{
    for (size_t i = 0; i < count; i++) {
        given = *from;
        if (!is_of(&of[i], call))
            continue;
        of[i].change();
        try_call(call, of[i].why, of[i].answer);
        if (of[i].change == changed || of[i].change == other_version)
            of[i].change();
    }
}

#define TRY(call, from, of) try_reasons(call, from, of, sizeof of / sizeof *of)

/* User data that are no record, and batches, whole and broken at the end. */
static void try_records(struct call *call, size_t size)
{
    size_t at = 0, one = (size - 8) / 2;
    given.frame_len = sealed(0, user_data, size, frame);
    try_call(call, "no record", KRBRELAY_BAD_RECORD);
    if (size < 9)
        return;
    content[0] = 'B';
    is_so(krbrelay_batch_add(content + 1, BIG - 1, &at, user_data, one) == KRBRELAY_OK
          && krbrelay_batch_add(content + 1, BIG - 1, &at, user_data, size - 8 - one) == KRBRELAY_OK,
          "a batch is made");
    given.frame_len = sealed(0, content, size + 1, frame);
    given.gives = content + 1;
    given.gives_len = size;
    given.gives_kind = KRBRELAY_BATCH;
    try_call(call, "batch", KRBRELAY_OK);
    content[4]++;
    given.frame_len = sealed(0, content, size + 1, frame);
    try_call(call, "broken batch", KRBRELAY_BAD_RECORD);
}

static void try_opening_by(struct call *call, size_t size)
{
    struct given from;
    give_frame(call, size);
    from = given;
    if (call->of == OF_RECORDS && size >= KRBRELAY_USER_DATA_LIMIT) {
        try_call(call, "no record", KRBRELAY_BAD_RECORD);
        return;
    }
    TRY(call, &from, last_reasons);
    if (size > ALL_REASONS)
        return;
    TRY(call, &from, reasons);
    if (given.mode == KRBRELAY_SAFE)
        TRY(call, &from, of_safe);
    else
        TRY(call, &from, of_priv);
    if (call->uses == OPENER)
        TRY(call, &from, of_openers);
    if (call->of == OF_RECORDS) {
        TRY(call, &from, of_receivers);
        given = from;
        try_records(call, size);
    }
}

static void try_header(struct call *call, size_t size)
{
    give_frame(call, size);
    try_call(call, "done", KRBRELAY_OK);
    given.frame_len--;
    try_call(call, "cut", KRBRELAY_MALFORMED);
}

/* Bytes that are no message, up to the limit of a frame and beyond it. */
static void try_garbage(struct call *call, uint32_t mode, int32_t etype)
{
    static const size_t lens[] = { 0, 1, KRBRELAY_FRAME_LIMIT, KRBRELAY_FRAME_LIMIT + 1 };
    for (size_t i = 0; i < sizeof lens / sizeof *lens; i++) {
        given_anew(mode, etype, 0);
        memset(frame, 0x30, lens[i]);
        given.frame_len = lens[i];
        try_call(call, "garbage", lens[i] > KRBRELAY_FRAME_LIMIT ? KRBRELAY_FIELD_TOOLONG : KRBRELAY_MALFORMED);
    }
}

void try_opening(uint32_t mode, int32_t etype, size_t size)
{
    for (int i = 0; i < call_count; i++) {
        if (calls[i].does != OPENS)
            continue;
        given_anew(mode, etype, size);
        if (calls[i].uses == NO_HANDLE)
            try_header(&calls[i], size);
        else
            try_opening_by(&calls[i], size);
        if (size == 0)
            try_garbage(&calls[i], mode, etype);
    }
}
