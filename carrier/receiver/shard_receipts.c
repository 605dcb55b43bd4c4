/* Receipts for the sessions of a shard (receipts.h): which leaves, when, and what it says is krb_receiver's. They are of
 * what is stored. */
#include "clock.h"
#include "receipts.h"
#include "shard.h"

#include <string.h>

enum { TOGETHER = 64 };                         /* receipts that are published at once */
enum { LATER = 1000, REST = 3000, AGAIN = 20 }; /* milliseconds */

/* Seals a receipt: 1, or 0 after a fault, which is reported. */
static int seal(const struct receiving *it, const struct krbrelay_receipt *due, struct carried *to,
                uint8_t frame[RECEIPT])
{
    struct receipt receipt = { .n = due->number, .history = { .is_known = it->stored.history.is_known },
                               .asks = due->asks };
    memcpy(receipt.history.bytes, due->history, sizeof receipt.history.bytes);
    if (receipt_seal(&it->of, &receipt, frame, &to->len) != 0)
        return 0;
    memcpy(to->session, it->of.name, sizeof to->session);
    to->frame = frame;
    return 1;
}

/* Some receipts that are sealed, and whose they are. */
struct sealed {
    size_t count;
    uint32_t places[TOGETHER], asks[TOGETHER];
    struct carried list[TOGETHER];
    uint8_t frames[TOGETHER][RECEIPT];
};

/* It didn't leave: 1, or 0 without such a session, which is never. */
static int owe_again(struct shard *s, uint32_t place, uint32_t asks)
{
    return krbrelay_shard_unpaid(&s->ends, place, asks) == KRBRELAY_OK;
}

/* Those that are due at this moment. None is of sessions that were forgotten. */
static void seal_some(struct shard *s, uint64_t now, struct sealed *to)
{
    struct krbrelay_receipt due = { .asks = 0 };
    uint32_t place = 0;
    to->count = 0;
    while (to->count < TOGETHER && krbrelay_shard_receipt(&s->ends, now, &place, &due) == KRBRELAY_OK && due.asks != 0) {
        if (place >= s->members.count)
            continue;
        to->places[to->count] = place;
        to->asks[to->count] = due.asks;
        if (seal(s->members.at[place], &due, &to->list[to->count], to->frames[to->count]))
            to->count++;
        else if (!owe_again(s, place, due.asks))
            break;
    }
}

/* Pays some that are due: 1 if there may be more. */
static int pay_some(struct shard *s, uint64_t now)
{
    struct sealed some;
    size_t i;
    seal_some(s, now, &some);
    if (some.count == 0)
        return 0;
    if (s->carrier->acknowledge(s->carrier, s->number, some.list, some.count) != ANSWER_DONE) {
        for (i = 0; i < some.count && owe_again(s, some.places[i], some.asks[i]); i++)
            continue;
        return 0;
    }
    s->counts.receipts += some.count;
    return some.count == TOGETHER;
}

void shard_pay(struct shard *s)
{
    while (pay_some(s, milliseconds()))
        continue;
}

/* Whether a session owes a receipt. */
static int owes(struct shard *s)
{
    struct krbrelay_receiving end = { .owed = 0 };
    size_t i;
    for (i = 0; i < s->members.count; i++)
        if (krbrelay_shard_session(&s->ends, (uint32_t)i, &end) == KRBRELAY_OK && end.owed != 0)
            return 1;
    return 0;
}

/* A carrier may need a moment before it keeps receipts. */
void shard_pay_rest(struct shard *s)
{
    uint64_t until = milliseconds() + REST;
    while (owes(s) && milliseconds() < until && !s->carrier->is_away(s->carrier))
        if (!pay_some(s, milliseconds() + LATER) && owes(s))
            pause_milliseconds(AGAIN);
}
