/* Tickets, openings and keys at rest without Kerberos: in the place of without_tickets.c. An opening is its session in the
 * clear with a digest, which nobody forges here; what is right of real ones is tested with a KDC (test_tickets.py of
 * carrier/tests). At times no ticket can be had, and the keytab can't be read. */
#include "key_wrapping.h"
#include "clock.h"
#include "ports.h"
#include "tickets.h"

#include <stdio.h>
#include <stdlib.h>
#include <string.h>

enum { FIRST_BYTE = 0x6e, DIGEST = sizeof(uint64_t), LIFE = 3600, READABLE = 4 };

struct kerberos { const struct kerberos_options *options; };
struct tickets { int has_tried; };

/* ---- The keytab */

static int can_read_keys(void)
{
    port_is_killed();
    if (!faults.has_no_keys[is_sender(running)] || drawn(READABLE) == 0)
        return 1;
    happened(KIND_KEYS, 1);
    faults.injected++;
    faults.of_stores += !is_sender(running);
    faults.carrier_at = now;
    return 0;
}

struct kerberos *kerberos_open(const struct kerberos_options *options, const char *principal)
{
    struct kerberos *it = can_read_keys() ? malloc(sizeof *it) : NULL;
    if (it != NULL)
        it->options = options;
    return it;
}

void kerberos_close(struct kerberos *kerberos)
{
    free(kerberos);
}

/* The wrapped key has a digest of what is said about it before it. */
int key_wrap(struct kerberos *kerberos, int usage, const char *about, const uint8_t *key, size_t len,
                 struct wrapped *to)
{
    uint64_t digest = digest_of(about, strlen(about));
    if (!can_read_keys())
        return -1;
    *to = (struct wrapped){ .kvno = 1, .etype = 18, .len = DIGEST + len };
    memcpy(to->bytes, &digest, DIGEST);
    memcpy(to->bytes + DIGEST, key, len);
    return 0;
}

int key_unwrap(struct kerberos *kerberos, int usage, const char *about, const struct wrapped *from,
                 uint8_t key[SESSION_KEY], size_t *len)
{
    uint64_t digest = digest_of(about, strlen(about));
    if (!can_read_keys() || from->len < DIGEST || from->len > DIGEST + SESSION_KEY
        || memcmp(&digest, from->bytes, DIGEST) != 0)
        return -1;
    *len = from->len - DIGEST;
    memcpy(key, from->bytes + DIGEST, *len);
    return 0;
}

int key_newest(struct kerberos *kerberos, uint32_t *kvno)
{
    *kvno = 1;
    return can_read_keys() ? 0 : -1;
}

/* ---- Openings */

int opening_is(const uint8_t *frame, size_t len)
{
    return len > 0 && frame[0] == FIRST_BYTE;
}

const char *opening_name(enum opening_answer answer)
{
#define NAME_OF(name) #name,
    static const char *const names[] = { "OK", OPENING_REASONS(NAME_OF) };
    return answer >= 0 ? names[answer] : "FAULT";
}

/* The name says of which of the application's names the session is, for the rules. */
int opening_draw(struct kerberos *kerberos, struct opened *it)
{
    unsigned i;
    it->etype = kerberos->options->etype;
    it->key_len = it->etype == 17 ? 16 : SESSION_KEY;
    for (i = 0; i < it->key_len; i++)
        it->key[i] = (uint8_t)drawn(256);
    (void)snprintf(it->name, sizeof it->name, "t%u-%08x%08x", name_of(it->stream), drawn(1u << 31), drawn(1u << 31));
    return 0;
}

static struct krbrelay_address end_of(uint8_t which)
{
    return (struct krbrelay_address){ .kind = KRBRELAY_DIRECTIONAL, .len = 4, .bytes = { 0, 0, 0, which } };
}

int opening_session(struct kerberos *kerberos, const struct opened *it, unsigned shard, struct session *of)
{
    size_t i;
    *of = (struct session){ .shard = shard, .etype = it->etype, .mode = KRBRELAY_PRIV, .key_len = it->key_len,
                            .first = 1, .has_opening = 1, .has_back = 1, .from = end_of(0), .to = end_of(1) };
    memcpy(of->name, it->name, sizeof of->name);
    memcpy(of->key, it->key, it->key_len);
    for (i = 0; i < it->key_len; i++)
        of->back[i] = it->key[i] ^ 0x5a; /* another key */
    return 0;
}

enum opening_answer opening_take(struct kerberos *kerberos, unsigned shard, const char *name, const uint8_t *frame,
                                 size_t len, struct opened *it)
{
    uint64_t digest;
    memset(it, 0, sizeof *it);
    if (len != 1 + sizeof *it + DIGEST)
        return OPENING_MALFORMED;
    digest = digest_of(frame + 1, sizeof *it);
    if (memcmp(&digest, frame + 1 + sizeof *it, DIGEST) != 0)
        return OPENING_CHANGED;
    memcpy(it, frame + 1, sizeof *it);
    if (strcmp(it->name, name) != 0)
        return OPENING_NAME;
    if (it->says_shard && it->shard != shard)
        return OPENING_ELSEWHERE;
    it->shard = shard;
    if (it->ends < read_clock().seconds)
        return OPENING_EXPIRED;
    return can_read_keys() ? OPENING_OK : OPENING_NO_KEY;
}

/* ---- Tickets */

struct tickets *tickets_open(const struct kerberos_options *options)
{
    return calloc(1, sizeof(struct tickets));
}

int tickets_have(struct tickets *tickets)
{
    tickets->has_tried = 1;
    if (!faults.has_no_tickets)
        return 1;
    happened(KIND_KDC, 1);
    faults.carrier_at = now; /* no frame of a session that begins can leave */
    return 0;
}

int tickets_have_tried(struct tickets *tickets)
{
    return tickets->has_tried;
}

int tickets_make_opening(struct tickets *tickets, struct kerberos *kerberos, const struct opened *it, uint8_t *frame,
                         size_t room, size_t *len)
{
    struct opened opened = *it;
    uint64_t digest;
    if (!tickets_have(tickets))
        return -1;
    happened(KIND_TICKETS, 1);
    opened.ends = read_clock().seconds + LIFE;
    (void)snprintf(opened.client, sizeof opened.client, "%s", kerberos->options->client);
    frame[0] = FIRST_BYTE;
    memcpy(frame + 1, &opened, sizeof opened);
    digest = digest_of(&opened, sizeof opened);
    memcpy(frame + 1 + sizeof opened, &digest, DIGEST);
    *len = 1 + sizeof opened + DIGEST;
    return 0;
}

void tickets_close(struct tickets *tickets)
{
    free(tickets);
}
