/* What the benchmarks have in common: clocks, and MIT's end of a session: an auth context of the key, with one address
 * of its own and one of the other end, which checks numbers and times. */
#ifndef MIT_END_H
#define MIT_END_H
#include "mit_library.h"
#include "session.h"
#include <time.h>

static uint8_t key[32];

static krb5_auth_context mit_end(int etype, uint8_t from, uint8_t to)
{
    uint8_t a[4] = { 10, 0, 0, from }, b[4] = { 10, 0, 0, to };
    krb5_address local = { KV5M_ADDRESS, ADDRTYPE_INET, 4, a };
    krb5_address remote = { KV5M_ADDRESS, ADDRTYPE_INET, 4, b };
    krb5_keyblock block = { KV5M_KEYBLOCK, etype, (unsigned)key_size(etype), key };
    krb5_auth_context c = NULL;
    must(krb5_auth_con_init(ctx, &c), "auth_con_init");
    must(krb5_auth_con_setuseruserkey(ctx, c, &block), "setuseruserkey");
    must(krb5_auth_con_setaddrs(ctx, c, &local, &remote), "setaddrs");
    must(krb5_auth_con_setflags(ctx, c, KRB5_AUTH_CONTEXT_DO_SEQUENCE | KRB5_AUTH_CONTEXT_DO_TIME),
         "setflags");
    return c;
}

static inline double clock_at(clockid_t clock)
{
    struct timespec t;
    clock_gettime(clock, &t);
    return (double)t.tv_sec + (double)t.tv_nsec * 1e-9;
}

static inline struct krbrelay_moment moment_of_now(void)
{
    struct timespec now;
    clock_gettime(CLOCK_REALTIME, &now);
    return moment((uint64_t)now.tv_sec, (uint32_t)(now.tv_nsec / 1000));
}
#endif
