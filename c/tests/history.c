/* Histories: the digests are Python's hashlib.sha1 of the digest before and a frame's last 12 bytes. */
#include "check.h"
#include "frames.h"
#include "krbrelay.h"

#include <string.h>

/* Frames of both kinds, one that is shorter than a code, and one of no bytes, by NULL; each after those before it. */
static const struct { const uint8_t *frame; size_t len; const char *digest; } known[] = {
    { safe_17, sizeof safe_17, "\xd6\x24\x0c\xe1\xbf\x87\xf7\x25\x39\x29\xa8\xcb\x1c\xf4\xf1\xfa\xb6\x5a\xf9\xdb" },
    { priv_18, sizeof priv_18, "\x92\x31\xdf\x25\xa0\xe1\x27\xda\x58\x42\xe4\x7e\xc0\xb5\x6f\x07\x1d\x9e\x98\xb0" },
    { (const uint8_t *)"abc", 3, "\x36\xff\xcf\x1a\x71\x32\xd7\x03\xd0\xc2\xc5\x3d\x9c\x5f\x58\xac\x3b\x72\x54\x99" },
    { NULL, 0, "\x6f\x47\x77\x43\xf2\x59\xf2\x7f\xf2\x46\x0e\xe8\xbc\x91\x51\xed\xf9\xfa\xc2\xd3" },
};

static int is_history(const uint8_t *history, const char *expected)
{
    return memcmp(history, expected, KRBRELAY_HISTORY_SIZE) == 0;
}

static void known_digests(void)
{
    uint8_t history[KRBRELAY_HISTORY_SIZE] = { 0 };
    for (size_t i = 0; i < sizeof known / sizeof known[0]; i++) {
        CHECK(krbrelay_history_add(history, known[i].frame, known[i].len) == KRBRELAY_OK);
        CHECK(is_history(history, known[i].digest));
    }
}

/* The last 12 bytes count, and no others; each of them does, and so does the order. */
static void what_counts(void)
{
    uint8_t first[KRBRELAY_HISTORY_SIZE], other[KRBRELAY_HISTORY_SIZE], changed[sizeof safe_17];
    for (size_t i = 0; i < sizeof safe_17; i++) {
        memcpy(changed, safe_17, sizeof changed);
        changed[i] ^= 1;
        memset(other, 0, sizeof other);
        CHECK(krbrelay_history_add(other, changed, sizeof changed) == KRBRELAY_OK);
        CHECK(is_history(other, known[0].digest) == (i < sizeof safe_17 - 12));
    }
    memset(first, 0, sizeof first);
    memset(other, 0, sizeof other);
    CHECK(krbrelay_history_add(first, safe_17, sizeof safe_17) == KRBRELAY_OK);
    CHECK(krbrelay_history_add(first, safe_18, sizeof safe_18) == KRBRELAY_OK);
    CHECK(krbrelay_history_add(other, safe_18, sizeof safe_18) == KRBRELAY_OK);
    CHECK(krbrelay_history_add(other, safe_17, sizeof safe_17) == KRBRELAY_OK);
    CHECK(memcmp(first, other, sizeof first) != 0);
}

int main(int count, char **words)
{
    check_only(1, count, words);
    RUN(known_digests());
    RUN(what_counts());
    return check_status("history");
}
