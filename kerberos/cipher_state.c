#include "cipher_state.h"

#include <string.h>

enum { MAC_SIZE = 12, BLOCK = CIPHER_STATE_SIZE, CONFOUNDER_SIZE = 16 };

struct bytes { const uint8_t *at; size_t len; };

int is_first_state(const uint8_t *state)
{
    static const uint8_t zeros[CIPHER_STATE_SIZE];
    return state == NULL || memcmp(state, zeros, sizeof zeros) == 0;
}

/* Takes one value in DER from the front: its tag, and its contents. */
static int take_value(struct bytes *from, uint8_t *tag, struct bytes *contents)
{
    size_t at = 2, len, digits, i;
    if (from->len < 2)
        return 0;
    *tag = from->at[0];
    len = from->at[1];
    if (len >= 0x80) {
        digits = len & 0x7f;
        if (digits > 4 || from->len - 2 < digits)
            return 0;
        for (len = 0, i = 0; i < digits; i++)
            len = len << 8 | from->at[at++];
    }
    if (len > from->len - at)
        return 0;
    contents->at = from->at + at;
    contents->len = len;
    from->at += at + len;
    from->len -= at + len;
    return 1;
}

/* The contents of the first value with this tag. */
static int find_value(struct bytes *in, uint8_t wanted)
{
    struct bytes rest = *in;
    uint8_t tag;
    while (take_value(&rest, &tag, in))
        if (tag == wanted)
            return 1;
    return 0;
}

int read_next_state(const uint8_t *frame, size_t len, uint8_t state[CIPHER_STATE_SIZE])
{
    /* KRB-PRIV, its sequence, enc-part, EncryptedData, cipher, and the bytes (RFC 4120 5.7.1). */
    static const uint8_t path[] = { 0x75, 0x30, 0xa3, 0x30, 0xa2, 0x04 };
    struct bytes it;
    size_t i;
    it.at = frame;
    it.len = len;
    for (i = 0; i < sizeof path; i++)
        if (!find_value(&it, path[i]))
            return 0;
    if (it.len <= CONFOUNDER_SIZE + MAC_SIZE)
        return 0;
    memcpy(state, it.at + ((it.len - MAC_SIZE + BLOCK - 1) / BLOCK - 2) * BLOCK, BLOCK);
    return 1;
}
