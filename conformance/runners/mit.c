/* The runner of MIT's library, krb5_rd_safe and krb5_rd_priv. A time is demanded by DO_TIME, a number
 * by DO_SEQUENCE; absent microseconds count as 0. It can't require the receiver's address, nor compare
 * the time only where it is present. */
#include "runner.h"
#include <krb5.h>
#include <unistd.h>

void krb5_set_debugging_time(krb5_context, krb5_timestamp, krb5_int32); /* exported, not declared */

/* The first fields of struct _krb5_auth_context (1.20): no public call sets the numbers. */
struct front {
    krb5_magic magic;
    void *remote_addr, *remote_port, *local_addr, *local_port, *key, *send_subkey, *recv_subkey;
    krb5_int32 flags;
    krb5_ui_4 remote_seq, local_seq;
};

static krb5_context ctx;
static krb5_auth_context ac;
static long skew = -1;

/* A context under a file of its own: the skew is read from there. */
static void open_context(long seconds)
{
    char path[] = P_tmpdir "/mit-runner-XXXXXX";
    int file = mkstemp(path);
    dprintf(file, "[libdefaults]\n clockskew = %ld\n default_realm = T\n", seconds);
    close(file);
    setenv("KRB5_CONFIG", path, 1);
    if (ctx)
        krb5_free_context(ctx);
    if (krb5_init_context(&ctx))
        exit(3);
    remove(path);
    skew = seconds;
}

static krb5_address *address_of(const struct host *host, krb5_address *to)
{
    *to = (krb5_address){ KV5M_ADDRESS, host->type, (unsigned)host->address.size, host->address.at };
    return host->present ? to : NULL;
}

/* The number, which a public call then confirms. */
static void set_number(uint32_t number)
{
    krb5_int32 told = -1;
    ((struct front *)ac)->remote_seq = number;
    krb5_auth_con_getremoteseqnumber(ctx, ac, &told);
    if ((krb5_ui_4)told != number)
        exit(3);
}

static int begin(const struct asked *asked)
{
    krb5_address local, remote;
    krb5_keyblock key = { KV5M_KEYBLOCK, asked->etype, (unsigned)asked->key.size, asked->key.at };
    if (asked->seconds > UINT32_MAX || asked->skew > INT32_MAX)
        return 0;
    if (asked->skew != skew)
        open_context(asked->skew);
    krb5_set_debugging_time(ctx, (krb5_timestamp)(uint32_t)asked->seconds, asked->microseconds);
    if (krb5_auth_con_init(ctx, &ac) || krb5_auth_con_setuseruserkey(ctx, ac, &key)
        || krb5_auth_con_setaddrs(ctx, ac, address_of(&asked->receiver, &local),
                                  address_of(&asked->sender, &remote))
        || krb5_auth_con_setflags(ctx, ac, (asked->time ? KRB5_AUTH_CONTEXT_DO_TIME : 0)
                                  | (asked->numbered ? KRB5_AUTH_CONTEXT_DO_SEQUENCE : 0)))
        exit(3);
    set_number(asked->number);
    return 1;
}

static void take(const struct asked *asked, struct bytes message)
{
    krb5_data in = { KV5M_DATA, (unsigned)message.size, (char *)message.at }, out = { 0 };
    krb5_replay_data replay = { 0 };
    krb5_error_code error = asked->safe ? krb5_rd_safe(ctx, ac, &in, &out, &replay)
                                        : krb5_rd_priv(ctx, ac, &in, &out, &replay);
    if (error) {
        say_no((long)error);
        return;
    }
    say_ok(out.data, out.length);
    krb5_free_data_contents(ctx, &out);
}

static void end(const struct asked *asked)
{
    (void)asked;
    krb5_auth_con_free(ctx, ac);
    ac = NULL;
}

int main(void) { return run(); }
