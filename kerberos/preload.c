/* A library to be preloaded, which takes the place of krb5_mk_safe, krb5_rd_safe, krb5_mk_priv and
 * krb5_rd_priv of MIT's libkrb5 by krbrelay. README.md says how to build and use it.
 *
 * Numbers, keys and addresses stay in MIT's auth context. What is made of its keys is kept beside it
 * (kept.h), and ends with it: so krb5_auth_con_free is taken too. */
#define _GNU_SOURCE
#include "kept.h"
#include "message.h"

#include <dlfcn.h>
#include <stdlib.h>
#include <string.h>

typedef krb5_error_code mit_call(krb5_context, krb5_auth_context, const krb5_data *, krb5_data *,
                                 krb5_replay_data *);

typedef krb5_error_code mit_free(krb5_context, krb5_auth_context);

static mit_call *mit_calls[CALLS];
static mit_free *mit_auth_con_free;

/* MIT's function of a name, which comes after this library's. */
static void find(const char *name, void *function, size_t size)
{
    void *found = dlsym(RTLD_NEXT, name);
    if (found == NULL || size != sizeof found)
        abort();
    memcpy(function, &found, sizeof found);
}

/* Before the program starts. */
__attribute__((constructor)) static void find_mit_calls(void)
{
    int i;
    for (i = 0; i < CALLS; i++)
        find(call_names[i], &mit_calls[i], sizeof mit_calls[i]);
    find("krb5_auth_con_free", &mit_auth_con_free, sizeof mit_auth_con_free);
}

static krb5_error_code pass_on(struct message *m, const char *reason)
{
    count_call(m->call, PASSED, reason, m->in->length, m->number);
    return mit_calls[m->call](m->ctx, m->ac, m->in, m->out, m->replay);
}

static krb5_error_code serve(enum call call, krb5_context ctx, krb5_auth_context ac,
                             const krb5_data *in, krb5_data *out, krb5_replay_data *replay)
{
    struct message m = { 0 };
    struct end end;
    const char *reason;
    m.call = call;
    m.ctx = ctx;
    m.ac = ac;
    m.in = in;
    m.out = out;
    m.replay = replay;
    reason = end_open(&end, ctx, ac, way_of(call));
    m.number = end.number;
    if (reason == NULL)
        reason = way_of(call) == SENDING ? make_message(&m, &end) : read_message(&m, &end);
    end_close(&end, ctx);
    if (reason != NULL)
        return pass_on(&m, reason);
    if (m.error != 0)
        count_call(call, REFUSED, m.refusal != NULL ? m.refusal : "ERROR", in->length, m.number);
    else
        count_call(call, SERVED, "OK", in->length, m.number);
    return m.error;
}

/* The library's only names: it is built with -fvisibility=hidden. */
#pragma GCC visibility push(default)

krb5_error_code krb5_mk_safe(krb5_context ctx, krb5_auth_context ac, const krb5_data *in,
                             krb5_data *out, krb5_replay_data *replay)
{
    return serve(MK_SAFE, ctx, ac, in, out, replay);
}

krb5_error_code krb5_rd_safe(krb5_context ctx, krb5_auth_context ac, const krb5_data *in,
                             krb5_data *out, krb5_replay_data *replay)
{
    return serve(RD_SAFE, ctx, ac, in, out, replay);
}

krb5_error_code krb5_mk_priv(krb5_context ctx, krb5_auth_context ac, const krb5_data *in,
                             krb5_data *out, krb5_replay_data *replay)
{
    return serve(MK_PRIV, ctx, ac, in, out, replay);
}

krb5_error_code krb5_rd_priv(krb5_context ctx, krb5_auth_context ac, const krb5_data *in,
                             krb5_data *out, krb5_replay_data *replay)
{
    return serve(RD_PRIV, ctx, ac, in, out, replay);
}

krb5_error_code krb5_auth_con_free(krb5_context ctx, krb5_auth_context ac)
{
    kept_end(ac);
    return mit_auth_con_free(ctx, ac);
}

#pragma GCC visibility pop
