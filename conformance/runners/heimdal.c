/* The runner of Heimdal's library, krb5_rd_safe and krb5_rd_priv, as mit.c. Its clock goes on from the
 * moment that is set. With -DNO_SAFE it is that of Samba, whose Heimdal has no krb5_rd_safe: link
 * samba/libkrb5-samba4.so.0 in place of Heimdal's library. */
#include "runner.h"
#include <krb5.h>
#include <sys/time.h>
#include <unistd.h>

enum { LATEST_MICROSECOND = 900000, AHEAD = 50000 };

static krb5_context ctx;
static krb5_auth_context ac;

static krb5_address *address_of(const struct host *host, krb5_address *to)
{
    to->addr_type = host->type;
    to->address.length = host->address.size;
    to->address.data = host->address.at;
    return host->present ? to : NULL;
}

/* krb5_timeofday adds whole seconds only: the offset of microseconds must not be negative. */
static krb5_error_code set_clock(int64_t seconds)
{
    struct timeval now;
    do
        gettimeofday(&now, NULL);
    while (now.tv_usec > LATEST_MICROSECOND);
    return krb5_set_real_time(ctx, seconds, (int32_t)now.tv_usec + AHEAD);
}

static int begin(const struct asked *asked)
{
    krb5_address local, remote;
    krb5_keyblock key = { asked->etype, { asked->key.size, asked->key.at } };
#ifdef NO_SAFE
    if (asked->safe)
        return 0;
#endif
    if (set_clock(asked->seconds))
        return 0;
    krb5_set_max_time_skew(ctx, asked->skew);
    if (krb5_auth_con_init(ctx, &ac) || krb5_auth_con_setkey(ctx, ac, &key)
        || krb5_auth_con_setaddrs(ctx, ac, address_of(&asked->receiver, &local),
                                  address_of(&asked->sender, &remote))
        || krb5_auth_con_setflags(ctx, ac, (asked->time ? KRB5_AUTH_CONTEXT_DO_TIME : 0)
                                  | (asked->numbered ? KRB5_AUTH_CONTEXT_DO_SEQUENCE : 0))
        || krb5_auth_con_setremoteseqnumber(ctx, ac, (int32_t)asked->number))
        return 0;
    return 1;
}

static krb5_error_code read_message(int safe, krb5_data *in, krb5_data *out, krb5_replay_data *replay)
{
#ifndef NO_SAFE
    if (safe)
        return krb5_rd_safe(ctx, ac, in, out, replay);
#endif
    (void)safe;
    return krb5_rd_priv(ctx, ac, in, out, replay);
}

static void take(const struct asked *asked, struct bytes message)
{
    krb5_data in = { message.size, message.at }, out = { 0 };
    krb5_replay_data replay;
    memset(&replay, 0, sizeof replay);
    krb5_error_code error = read_message(asked->safe, &in, &out, &replay);
    if (error) {
        say_no((long)error);
        return;
    }
    say_ok(out.data, out.length);
    krb5_data_free(&out);
}

static void end(const struct asked *asked)
{
    (void)asked;
    krb5_auth_con_free(ctx, ac);
    ac = NULL;
}

int main(void)
{
    char path[] = P_tmpdir "/heimdal-runner-XXXXXX";
    close(mkstemp(path));
    setenv("KRB5_CONFIG", path, 1);
    int failed = krb5_init_context(&ctx) != 0;
    remove(path);
    return failed ? 3 : run();
}
