#include "receipts.h"
#include "clock.h"
#include "log.h"

#include <string.h>
#include <sys/random.h>

enum { CHECKSUM = 12, PARTS = 3 }; /* bytes of a checksum, which are a message's last ones; so many are enough */

/* A KRB-SAFE message of 1970, from nowhere, whose user data is no record: nobody seals it, and nobody takes
 * it. Its checksum is an HMAC under the session's key. */
static enum krbrelay_answer seal_part(struct krbrelay_sealer *sealer, uint8_t part, uint8_t checksum[CHECKSUM])
{
    uint8_t text[] = "krbrelay receipts 0", frame[KRBRELAY_FRAME_SIZE(sizeof text)];
    const struct krbrelay_moment at = { 0, 0, 0 };
    const uint8_t unused[16] = { 0 };
    enum krbrelay_answer answer;
    size_t len = 0;
    text[sizeof text - 2] = (uint8_t)('0' + part);
    answer = krbrelay_sealer_seal(sealer, text, sizeof text - 1, &at, unused, frame, sizeof frame, &len);
    if (answer == KRBRELAY_OK)
        memcpy(checksum, frame + len - CHECKSUM, CHECKSUM);
    explicit_bzero(frame, sizeof frame);
    return answer;
}

int receipt_key(struct session *of)
{
    const struct krbrelay_session session = { .mode = KRBRELAY_SAFE, .sender = { .kind = 3, .len = 4,
                                              .bytes = { 0, 0, 0, 9 } } }; /* a directional address of no end */
    struct krbrelay_sealer sealer = { 0 };
    uint8_t bytes[PARTS * CHECKSUM];
    enum krbrelay_answer answer;
    uint8_t i;
    if (of->has_back)
        return 0;
    answer = krbrelay_sealer_new(&sealer, of->etype, of->key, of->key_len, &session);
    for (i = 0; i < PARTS && answer == KRBRELAY_OK; i++)
        answer = seal_part(&sealer, i, bytes + i * CHECKSUM);
    krbrelay_sealer_free(&sealer);
    of->has_back = answer == KRBRELAY_OK;
    if (of->has_back)
        memcpy(of->back, bytes, of->key_len);
    else
        report_answer("key_underived", of->name, 0, answer);
    explicit_bzero(bytes, sizeof bytes);
    return of->has_back ? 0 : -1;
}

/* The user data of a receipt: how many bytes it has. */
static size_t write_said(const struct receipt *receipt, uint8_t said[KRBRELAY_HISTORY_SIZE + 1])
{
    size_t len = 0;
    if (receipt->history.is_known)
        memcpy(said, receipt->history.bytes, len = KRBRELAY_HISTORY_SIZE);
    if (receipt->asks != KRBRELAY_ASKS_NOTHING)
        said[len++] = (uint8_t)receipt->asks;
    return len;
}

/* What user data says: 1, or 0 if it is none of a receipt. */
static int read_said(const uint8_t *said, size_t len, struct receipt *receipt)
{
    size_t history = len >= KRBRELAY_HISTORY_SIZE ? KRBRELAY_HISTORY_SIZE : 0;
    receipt->history.is_known = history > 0;
    memcpy(receipt->history.bytes, said, history);
    receipt->asks = len > history ? said[history] : KRBRELAY_ASKS_NOTHING;
    return len <= history + 1
           && (len == history || receipt->asks == KRBRELAY_ASKS_MISSING
               || receipt->asks == KRBRELAY_ASKS_REFUSED);
}

/* Whether it is the history of no frames. */
static int is_of_none(const struct history *history)
{
    static const uint8_t none[KRBRELAY_HISTORY_SIZE];
    return history->is_known && memcmp(history->bytes, none, sizeof none) == 0;
}

int receipt_seal(const struct session *of, const struct receipt *receipt, uint8_t frame[RECEIPT],
                 size_t *len)
{
    const struct krbrelay_session session = { .mode = KRBRELAY_PRIV,
                                              .first = (uint32_t)(receipt->n - (receipt->n > 0)),
                                              .sender = of->to };
    uint8_t said[KRBRELAY_HISTORY_SIZE + 1];
    struct krbrelay_sealer sealer = { 0 };
    struct krbrelay_moment now = read_clock();
    uint8_t confounder[16];
    enum krbrelay_answer answer;
    if (getrandom(confounder, sizeof confounder, 0) != (ssize_t)sizeof confounder) {
        log_system("nothing_drawn", "getrandom");
        return -1;
    }
    answer = krbrelay_sealer_new(&sealer, of->etype, of->back, of->key_len, &session);
    if (answer == KRBRELAY_OK)
        answer = krbrelay_sealer_seal(&sealer, said, write_said(receipt, said), &now, confounder,
                                      frame, RECEIPT, len); /* no record: a text has no last number */
    krbrelay_sealer_free(&sealer);
    if (answer == KRBRELAY_OK)
        return 0;
    report_answer("receipt_unsealed", of->name, receipt->n, answer);
    return -1;
}

enum receipt_answer receipt_open(const struct session *of, struct krbrelay_opener *opener, const uint8_t *frame,
                                 size_t len, struct receipt *receipt)
{
    const struct krbrelay_expect expect = { .mode = KRBRELAY_PRIV };
    const struct krbrelay_demand demand = { .how_sender = KRBRELAY_REQUIRED, .sender = of->to };
    struct krbrelay_moment now = read_clock();
    struct krbrelay_carried carried;
    uint8_t text[RECEIPT];
    size_t size;
    enum krbrelay_answer answer;
    if (len > RECEIPT)
        return RECEIPT_NONE;
    if (opener->at == NULL
        && krbrelay_opener_new(opener, of->etype, of->back, of->key_len, &expect) != KRBRELAY_OK)
        return RECEIPT_FAULT;
    answer = krbrelay_opener_open(opener, frame, len, &demand, &now, text, sizeof text, &size, &carried);
    if (answer != KRBRELAY_OK)
        return answer == KRBRELAY_MEMORY ? RECEIPT_FAULT : RECEIPT_NONE;
    if (!carried.has_number || !read_said(text, size, receipt))
        return RECEIPT_NONE;
    receipt->n = is_of_none(&receipt->history) ? of->first : (uint64_t)carried.number + 1;
    return RECEIPT_READ;
}
