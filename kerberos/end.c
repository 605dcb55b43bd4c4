#include "end.h"

#include <stdlib.h>
#include <string.h>

/* libkrb5 exports these, and krb5.h doesn't declare them. */
krb5_error_code krb5_auth_con_getivector(krb5_context, krb5_auth_context, krb5_pointer *);
krb5_error_code krb5_make_fulladdr(krb5_context, krb5_address *, krb5_address *, krb5_address *);

/* The first members of MIT's struct _krb5_auth_context, in version 1.20.1. No call sets a number
 * or tells a port, so these are reached here, and only where the public calls tell the same. */
struct layout {
    krb5_magic magic;
    krb5_address *remote_addr, *remote_port, *local_addr, *local_port;
    krb5_key key, send_subkey, recv_subkey;
    krb5_int32 flags;
    uint32_t remote_number, local_number;
};

static int is_aes(const krb5_keyblock *key)
{
    return key->enctype == ENCTYPE_AES128_CTS_HMAC_SHA1_96 ||
           key->enctype == ENCTYPE_AES256_CTS_HMAC_SHA1_96;
}

/* The flags and the number, by MIT's public calls. */
static const char *read_numbers(struct end *end, krb5_context ctx, krb5_auth_context ac,
                                enum direction way)
{
    const struct layout *layout = (const struct layout *)(const void *)ac;
    krb5_int32 local = 0, remote = 0;
    if (krb5_auth_con_getflags(ctx, ac, &end->flags) != 0 ||
        krb5_auth_con_getlocalseqnumber(ctx, ac, &local) != 0 ||
        krb5_auth_con_getremoteseqnumber(ctx, ac, &remote) != 0)
        return "no_numbers";
    if (layout->magic != KV5M_AUTH_CONTEXT || layout->flags != end->flags ||
        layout->local_number != (uint32_t)local || layout->remote_number != (uint32_t)remote)
        return "unknown_layout";
    end->number = (uint32_t)(way == SENDING ? local : remote);
    return NULL;
}

/* The sub-session key of the direction, else the session key. */
static const char *read_key(struct end *end, krb5_context ctx, krb5_auth_context ac,
                            enum direction way)
{
    krb5_error_code error = way == SENDING ? krb5_auth_con_getsendsubkey(ctx, ac, &end->key)
                                           : krb5_auth_con_getrecvsubkey(ctx, ac, &end->key);
    if (error == 0 && end->key == NULL)
        error = krb5_auth_con_getkey(ctx, ac, &end->key);
    if (error != 0 || end->key == NULL)
        return "no_key";
    return is_aes(end->key) ? NULL : "encryption_type";
}

static const char *copy_address(struct krbrelay_address *to, const krb5_address *from)
{
    if (from->length > sizeof to->bytes)
        return "long_address";
    to->kind = from->addrtype;
    to->len = from->length;
    memcpy(to->bytes, from->contents, from->length);
    return NULL;
}

/* An address of the context, with its port where it has one. */
static const char *read_address(struct krbrelay_address *to, krb5_context ctx, krb5_address *host,
                                krb5_address *port)
{
    krb5_address full = { 0 };
    const char *reason;
    if (host == NULL)
        return NULL;
    if (port == NULL)
        return copy_address(to, host);
    if (krb5_make_fulladdr(ctx, host, port, &full) != 0)
        return "no_full_address";
    reason = copy_address(to, &full);
    free(full.contents);
    return reason;
}

static const char *read_addresses(struct end *end, krb5_context ctx, krb5_auth_context ac)
{
    const struct layout *layout = (const struct layout *)(const void *)ac;
    const char *reason = read_address(&end->local, ctx, layout->local_addr, layout->local_port);
    if (reason == NULL)
        reason = read_address(&end->remote, ctx, layout->remote_addr, layout->remote_port);
    end->has_local = layout->local_addr != NULL;
    end->has_remote = layout->remote_addr != NULL;
    return reason;
}

/* The cipher state that krb5_auth_con_initivector makes has the size of the session key's type. */
static const char *read_cipher_state(struct end *end, krb5_context ctx, krb5_auth_context ac)
{
    krb5_pointer state = NULL;
    krb5_keyblock *key = NULL;
    const char *reason = NULL;
    if (krb5_auth_con_getivector(ctx, ac, &state) != 0 || state == NULL)
        return NULL;
    if (krb5_auth_con_getkey(ctx, ac, &key) != 0 || key == NULL || !is_aes(key))
        reason = "other_cipher_state";
    krb5_free_keyblock(ctx, key);
    end->cipher_state = state;
    return reason;
}

const char *end_open(struct end *end, krb5_context ctx, krb5_auth_context ac, enum direction way)
{
    const char *reason;
    memset(end, 0, sizeof *end);
    reason = read_numbers(end, ctx, ac, way);
    if (reason == NULL)
        reason = read_key(end, ctx, ac, way);
    if (reason == NULL)
        reason = read_addresses(end, ctx, ac);
    if (reason == NULL)
        reason = read_cipher_state(end, ctx, ac);
    return reason;
}

void end_close(struct end *end, krb5_context ctx)
{
    krb5_free_keyblock(ctx, end->key);
    end->key = NULL;
}

void set_number(krb5_auth_context ac, enum direction way, uint32_t number)
{
    struct layout *layout = (struct layout *)(void *)ac;
    if (way == SENDING)
        layout->local_number = number;
    else
        layout->remote_number = number;
}
