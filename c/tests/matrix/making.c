/* Cases of the calls that make a handle. */
#include "cases.h"

#include <string.h>

static void etype_19(void) { given.etype = 19; }
static void key_less_1(void) { given.key_len--; }
static void mode_22(void) { given.session.mode = given.expect.mode = 22; }
static void reserved(void) { given.session.reserved[0] = given.expect.reserved[0] = 1; }

static void address_of(uint32_t len)
{
    given.session.sender.len = given.expect.sender.len = len;
    given.demand.sender.len = len <= KRBRELAY_ADDRESS_LIMIT ? len : given.demand.sender.len;
}

static void address_40(void) { address_of(KRBRELAY_ADDRESS_LIMIT); }
static void address_41(void) { address_of(KRBRELAY_ADDRESS_LIMIT + 1); }
static void address_0(void) { address_of(0); }
static void receiver_41(void) { given.session.receiver.len = given.expect.receiver.len = KRBRELAY_ADDRESS_LIMIT + 1; }
static void holds_another(void) { given.at_handle.holds_another = 1; }

static void holds_another_and_key_less_1(void)
{
    holds_another();
    key_less_1();
}

static const struct reason reasons[] = {
    { "done", KRBRELAY_OK, as_given },
    { "etype 19", KRBRELAY_ETYPE, etype_19 },
    { "key less 1", KRBRELAY_KEY_SIZE, key_less_1 },
    { "mode 22", KRBRELAY_MODE, mode_22 },
    { "address of 0", KRBRELAY_OK, address_0 },
    { "address of 40", KRBRELAY_OK, address_40 },
    { "address of 41", KRBRELAY_ADDRESS, address_41 },
    { "receiver of 41", KRBRELAY_ADDRESS, receiver_41 },
    { "reserved", KRBRELAY_ARGUMENT, reserved },
    { "holds another", KRBRELAY_OK, holds_another },
    { "holds another, key less 1", KRBRELAY_KEY_SIZE, holds_another_and_key_less_1 },
};

static void number_beyond_all(void) { given.expected = given.demand.number = (UINT64_C(1) << 32) + 1; }

void try_making(uint32_t mode, int32_t etype)
{
    for (int i = 0; i < call_count; i++)
        for (size_t k = 0; calls[i].does == MAKES && k < sizeof reasons / sizeof *reasons; k++) {
            given_anew(mode, etype, 0);
            reasons[k].change();
            try_call(&calls[i], reasons[k].why, reasons[k].answer);
        }
    given_anew(mode, etype, 0);
    number_beyond_all();
    try_call(call_of("receiver_new"), "number 2^32 + 1", KRBRELAY_ARGUMENT);
    try_call(call_of("peer_new"), "number 2^32 + 1", KRBRELAY_ARGUMENT);
}
