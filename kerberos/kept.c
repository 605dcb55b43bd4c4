#define _GNU_SOURCE
#include "kept.h"

#include <pthread.h>
#include <stdlib.h>
#include <string.h>

enum { BUCKETS = 256 };

static struct kept *buckets[BUCKETS];
static pthread_mutex_t lock = PTHREAD_MUTEX_INITIALIZER;
static unsigned long made;

unsigned long kept_made(void)
{
    return __atomic_load_n(&made, __ATOMIC_RELAXED);
}

static void count_made(void)
{
    __atomic_fetch_add(&made, 1, __ATOMIC_RELAXED);
}

/* ---- the table */

static void hold(void) { pthread_mutex_lock(&lock); }

static void release(void) { pthread_mutex_unlock(&lock); }

/* No thread has the lock when the process forks, so the child can take it. */
__attribute__((constructor)) static void watch_forks(void)
{
    if (pthread_atfork(hold, release, release) != 0)
        abort();
}

static struct kept **bucket_of(krb5_auth_context ac)
{
    return &buckets[(uintptr_t)ac / sizeof(void *) / 2 % BUCKETS];
}

/* Takes the entry of a context out, NULL if there is none. */
static struct kept *take_out(krb5_auth_context ac)
{
    struct kept **place = bucket_of(ac), *found;
    hold();
    while (*place != NULL && (*place)->of != ac)
        place = &(*place)->next;
    found = *place;
    if (found != NULL)
        *place = found->next;
    release();
    return found;
}

struct kept *kept_take(krb5_auth_context ac)
{
    struct kept *kept = take_out(ac);
    if (kept == NULL && (kept = calloc(1, sizeof *kept)) != NULL)
        kept->of = ac;
    return kept;
}

void kept_put(struct kept *kept)
{
    struct kept **place = bucket_of(kept->of);
    hold();
    kept->next = *place;
    *place = kept;
    release();
}

void kept_end(krb5_auth_context ac)
{
    struct kept *kept = take_out(ac);
    size_t i;
    if (kept == NULL)
        return;
    krbrelay_sealer_free(&kept->sealer);
    for (i = 0; i < KEPT_MODES; i++)
        krbrelay_opener_free(&kept->openers[i]);
    explicit_bzero(kept, sizeof *kept);
    free(kept);
}

/* ---- keys and sessions */

/* All bytes are compared, whatever they are. */
static int is_key(const struct kept_key *kept, const krb5_keyblock *key)
{
    unsigned differ = 0, i;
    if (kept->etype != key->enctype || kept->len != key->length)
        return 0;
    for (i = 0; i < kept->len; i++)
        differ |= (unsigned)(kept->bytes[i] ^ key->contents[i]);
    return differ == 0;
}

static void set_key(struct kept_key *kept, const krb5_keyblock *key)
{
    size_t len = key->length < sizeof kept->bytes ? key->length : sizeof kept->bytes;
    explicit_bzero(kept, sizeof *kept);
    kept->etype = key->enctype;
    kept->len = (unsigned)len;
    memcpy(kept->bytes, key->contents, len);
}

/* The same addresses: struct krbrelay_session has no padding. */
static int is_session(const struct krbrelay_session *a, const struct krbrelay_session *b)
{
    struct krbrelay_session alike = *b;
    alike.mode = a->mode;
    alike.first = a->first;
    return memcmp(a, &alike, sizeof alike) == 0;
}

/* ---- handles */

static int is_at(struct krbrelay_sealer *sealer, uint32_t number)
{
    uint64_t next = 0;
    return krbrelay_sealer_next(sealer, &next) == KRBRELAY_OK && next == number;
}

enum krbrelay_answer kept_sealer(struct kept *kept, const krb5_keyblock *key,
                                 const struct krbrelay_session *session)
{
    if (is_key(&kept->sealing, key) && is_session(&kept->session, session) &&
        is_at(&kept->sealer, session->first))
        return krbrelay_sealer_set_mode(&kept->sealer, session->mode);
    set_key(&kept->sealing, key);
    kept->session = *session;
    count_made();
    return krbrelay_sealer_new(&kept->sealer, key->enctype, key->contents, key->length, session);
}

enum krbrelay_answer kept_opener(struct kept *kept, const krb5_keyblock *key,
                                 enum krbrelay_mode mode, struct krbrelay_opener **opener)
{
    struct krbrelay_expect expect = KRBRELAY_INIT;
    size_t i;
    *opener = &kept->openers[mode == KRBRELAY_PRIV];
    if (!is_key(&kept->opening, key)) {
        for (i = 0; i < KEPT_MODES; i++)
            krbrelay_opener_free(&kept->openers[i]);
        set_key(&kept->opening, key);
    }
    if (!krbrelay_opener_is_empty(*opener))
        return KRBRELAY_OK;
    expect.mode = mode;
    count_made();
    return krbrelay_opener_new(*opener, key->enctype, key->contents, key->length, &expect);
}
