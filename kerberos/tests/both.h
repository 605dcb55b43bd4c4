/* MIT's four message calls beside those of kerberos, which is linked to the program. */
#ifndef BOTH_H
#define BOTH_H

#include <dlfcn.h>
#include <krb5.h>
#include <stdint.h>
#include <stdio.h>
#include <stdlib.h>
#include <string.h>

enum call { MK_SAFE, RD_SAFE, MK_PRIV, RD_PRIV, CALLS };

typedef krb5_error_code message_call(krb5_context, krb5_auth_context, const krb5_data *,
                                     krb5_data *, krb5_replay_data *);

static message_call *const ours[CALLS] = {
    krb5_mk_safe, krb5_rd_safe, krb5_mk_priv, krb5_rd_priv
};
static message_call *mit[CALLS];

static inline void must(krb5_error_code error, const char *what)
{
    if (error == 0)
        return;
    fprintf(stderr, "%s: %ld\n", what, (long)error);
    exit(2);
}

static inline void find_mit_calls(void)
{
    static const char *const names[CALLS] = {
        "krb5_mk_safe", "krb5_rd_safe", "krb5_mk_priv", "krb5_rd_priv"
    };
    void *library = dlopen("libkrb5.so.3", RTLD_NOW | RTLD_NOLOAD);
    int i;
    for (i = 0; i < CALLS; i++) {
        void *found = library != NULL ? dlsym(library, names[i]) : NULL;
        must(found == NULL, "MIT's library");
        memcpy(&mit[i], &found, sizeof found);
    }
    must(mit[MK_SAFE] == ours[MK_SAFE], "MIT's calls are those of kerberos");
}

/* An end at 10.0.0.LOCAL, which numbers its messages and asks for no time. */
static inline krb5_auth_context end_of(krb5_context ctx, int etype, const uint8_t key[32],
                                       uint8_t local, uint8_t remote)
{
    uint8_t here[4] = { 10, 0, 0, local }, there[4] = { 10, 0, 0, remote };
    krb5_address from = { KV5M_ADDRESS, ADDRTYPE_INET, 4, here };
    krb5_address to = { KV5M_ADDRESS, ADDRTYPE_INET, 4, there };
    krb5_keyblock block = { KV5M_KEYBLOCK, etype, etype == 17 ? 16u : 32u, NULL };
    krb5_auth_context ac = NULL;
    uint8_t copy[32];
    memcpy(copy, key, sizeof copy);
    block.contents = copy;
    must(krb5_auth_con_init(ctx, &ac), "auth_con_init");
    must(krb5_auth_con_setuseruserkey(ctx, ac, &block), "setuseruserkey");
    must(krb5_auth_con_setaddrs(ctx, ac, &from, &to), "setaddrs");
    must(krb5_auth_con_setflags(ctx, ac, KRB5_AUTH_CONTEXT_DO_SEQUENCE), "setflags");
    return ac;
}

#endif
