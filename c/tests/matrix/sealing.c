/* Cases of the calls that seal, and the changes that others share. */
#include "cases.h"

#include <string.h>

void as_given(void) { }
void moment_of_a_million(void) { given.at.microseconds = 1000000; }
void reserved_of_moment(void) { given.at.reserved = 1; }
void empty(void) { given.at_handle.is_empty = 1; }
void wiped(void) { given.at_handle.is_wiped = 1; }
void room_0(void) { given.room = 0; }

static size_t exact;        /* of the frame */
static uint8_t batch[BIG];

static void room_exact(void) { given.room = exact; }
static void room_less_1(void) { given.room = exact - 1; }
static void room_less_3(void) { given.room = exact - 3; }
static void no_number(void) { given.at_handle.is_exhausted = 1; }

static const struct reason reasons[] = {
    { "done", KRBRELAY_OK, as_given },
    { "room 0", KRBRELAY_ROOM, room_0 },
    { "no number is left", KRBRELAY_EXHAUSTED, no_number },
    { "empty", KRBRELAY_EMPTY, empty },
};

/* Of the calls that are given the moment; those that aren't may need two bytes more. */
static const struct reason at_moment[] = {
    { "room exact", KRBRELAY_OK, room_exact },
    { "room less 1", KRBRELAY_ROOM, room_less_1 },
    { "moment", KRBRELAY_MOMENT, moment_of_a_million },
    { "reserved", KRBRELAY_ARGUMENT, reserved_of_moment },
};

static const struct reason by_now[] = { { "room less 3", KRBRELAY_ROOM, room_less_3 } };

static void try_reasons(struct call *call, const struct given *from, const struct reason *of, size_t count)
{
    for (size_t i = 0; i < count; i++) {
        given = *from;
        of[i].change();
        try_call(call, of[i].why, of[i].answer);
    }
}

/* What is 2 texts that fill so many bytes, 8 at least. */
static void make_batch(size_t size)
{
    size_t at = 0, one = (size - 8) / 2;
    is_so(krbrelay_batch_add(batch, BIG, &at, user_data, one) == KRBRELAY_OK
          && krbrelay_batch_add(batch, BIG, &at, user_data, size - 8 - one) == KRBRELAY_OK && at == size,
          "a batch is made");
}

static void try_records(struct call *call, const struct given *from)
{
    given = *from;
    given.kind = 4;
    try_call(call, "kind 4", KRBRELAY_RECORD);
    given = *from;
    given.kind = KRBRELAY_CLOSE;
    try_call(call, "close", from->body_len == 0 ? KRBRELAY_OK : KRBRELAY_RECORD);
    if (from->size < 8)
        return;
    make_batch(from->size);
    given = *from;
    given.kind = KRBRELAY_BATCH;
    given.body = batch;
    try_call(call, "batch", KRBRELAY_OK);
    given.body_len--;
    try_call(call, "batch cut", KRBRELAY_RECORD);
}

static uint32_t longest(const struct call *call)
{
    return KRBRELAY_USER_DATA_LIMIT - (call->of == OF_RECORDS);
}

static void try_sealing_by(struct call *call, size_t size)
{
    struct given from = given;
    uint32_t too_long = call->of == OF_RECORDS ? KRBRELAY_RECORD : KRBRELAY_TOO_LONG;
    if (size > longest(call)) {
        try_call(call, "too long", too_long);
        return;
    }
    exact = sealed(call->of == OF_RECORDS ? KRBRELAY_TEXT : 0, user_data, size, frame);
    is_so(exact != 0, "a frame is sealed");
    try_reasons(call, &from, reasons, size <= ALL_REASONS ? sizeof reasons / sizeof *reasons : 1);
    if (call->draws)
        try_reasons(call, &from, by_now, size <= ALL_REASONS);
    else
        try_reasons(call, &from, at_moment, size <= ALL_REASONS ? sizeof at_moment / sizeof *at_moment : 1);
    if (call->of == OF_RECORDS && size <= ALL_REASONS)
        try_records(call, &from);
    if (call->uses == SEALER && size <= ALL_REASONS) {
        given = from;
        wiped();
        try_call(call, "wiped", KRBRELAY_WIPED);
    }
}

void try_sealing(uint32_t mode, int32_t etype, size_t size)
{
    for (int i = 0; i < call_count; i++)
        if (calls[i].does == SEALS) {
            given_anew(mode, etype, size);
            try_sealing_by(&calls[i], size);
        }
}
