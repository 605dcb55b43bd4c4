/* Exchanges messages between libkrbrelay and Heimdal's library in one process, 1,000 each way for
 * each kind and encryption type, and prints a line for each. */
#include "../../c/tests/check.h"

#include <krb5.h>
#include <krbrelay.h>
#include <stdio.h>
#include <stdlib.h>
#include <string.h>

enum { MESSAGES = 1000, FIRST = 5, FLAGS = KRB5_AUTH_CONTEXT_DO_SEQUENCE };

static krb5_context ctx;
static uint8_t sender_bytes[4] = { 10, 0, 0, 1 }, receiver_bytes[4] = { 10, 0, 0, 255 };
static uint8_t key[32], text[MESSAGES], frame[KRBRELAY_FRAME_SIZE(MESSAGES)], back[sizeof frame];

static krb5_auth_context context_of(int etype, uint8_t *local, uint8_t *remote)
{
    krb5_auth_context c;
    krb5_address from = { KRB5_ADDRESS_INET, { 4, local } };
    krb5_address to = { KRB5_ADDRESS_INET, { 4, remote } };
    krb5_keyblock block = { etype, { etype == 17 ? 16 : 32, key } };
    check(krb5_auth_con_init(ctx, &c) == 0, "init");
    check(krb5_auth_con_setaddrs(ctx, c, &from, &to) == 0, "setaddrs");
    check(krb5_auth_con_setflags(ctx, c, FLAGS) == 0, "setflags");
    check(krb5_auth_con_setkey(ctx, c, &block) == 0, "setkey");
    check(krb5_auth_con_setlocalseqnumber(ctx, c, FIRST) == 0, "local number");
    check(krb5_auth_con_setremoteseqnumber(ctx, c, FIRST) == 0, "remote number");
    return c;
}

static void set_address(struct krbrelay_address *to, const uint8_t *bytes)
{
    to->kind = 2;
    to->len = 4;
    memcpy(to->bytes, bytes, 4);
}

/* How many of ours Heimdal reads. */
static int to_heimdal(uint32_t mode, int etype)
{
    krb5_auth_context c = context_of(etype, receiver_bytes, sender_bytes);
    struct krbrelay_session session = { .mode = mode, .first = FIRST };
    struct krbrelay_sealer sealer = { 0 };
    int good = 0;
    set_address(&session.sender, sender_bytes);
    check(krbrelay_sealer_new(&sealer, etype, key, etype == 17 ? 16 : 32, &session) == 0, "sealer");
    for (size_t len = 0; len < MESSAGES; len++) {
        struct krbrelay_moment at = { 1000000000, (uint32_t)len, 0 };
        uint8_t confounder[16];
        size_t size = 0;
        krb5_data in, out = { 0, NULL };
        krb5_replay_data replay;
        krb5_generate_random_block(confounder, sizeof confounder);
        check(krbrelay_sealer_seal(&sealer, text, len, &at, confounder, frame, sizeof frame, &size)
              == 0, "seal");
        in.length = size;
        in.data = frame;
        if ((mode == KRBRELAY_SAFE ? krb5_rd_safe(ctx, c, &in, &out, &replay)
                                   : krb5_rd_priv(ctx, c, &in, &out, &replay)) != 0)
            continue;
        good += out.length == len && (len == 0 || memcmp(out.data, text, len) == 0);
        krb5_data_free(&out);
    }
    krbrelay_sealer_free(&sealer);
    krb5_auth_con_free(ctx, c);
    return good;
}

/* How many of Heimdal's ours opens. */
static int to_ours(uint32_t mode, int etype)
{
    krb5_auth_context c = context_of(etype, sender_bytes, receiver_bytes);
    struct krbrelay_expect expect = { .mode = mode };
    struct krbrelay_opener opener = { 0 };
    int good = 0;
    set_address(&expect.sender, sender_bytes);
    set_address(&expect.receiver, receiver_bytes);
    check(krbrelay_opener_new(&opener, etype, key, etype == 17 ? 16 : 32, &expect) == 0, "opener");
    for (size_t len = 0; len < MESSAGES; len++) {
        struct krbrelay_demand demand = { .how_sender = KRBRELAY_REQUIRED,
            .how_receiver = KRBRELAY_IF_PRESENT, .how_number = KRBRELAY_REQUIRED,
            .number = FIRST + len, .sender = expect.sender, .receiver = expect.receiver };
        struct krbrelay_carried carried;
        struct krbrelay_moment at = { 0 };
        size_t size = 0;
        krb5_data in = { len, text }, out = { 0, NULL };
        krb5_replay_data replay;
        check((mode == KRBRELAY_SAFE ? krb5_mk_safe(ctx, c, &in, &out, &replay)
                                     : krb5_mk_priv(ctx, c, &in, &out, &replay)) == 0, "mk");
        if (krbrelay_opener_open(&opener, out.data, out.length, &demand, &at, back, sizeof back,
                                 &size, &carried) == KRBRELAY_OK)
            good += size == len && memcmp(back, text, len) == 0;
        krb5_data_free(&out);
    }
    krbrelay_opener_free(&opener);
    krb5_auth_con_free(ctx, c);
    return good;
}

int main(void)
{
    int failed = 0;
    check(krb5_init_context(&ctx) == 0, "init_context");
    krb5_generate_random_block(key, sizeof key);
    krb5_generate_random_block(text, sizeof text);
    for (uint32_t mode = KRBRELAY_SAFE; mode <= KRBRELAY_PRIV; mode++)
        for (int etype = 17; etype <= 18; etype++) {
            int read = to_heimdal(mode, etype), opened = to_ours(mode, etype);
            printf("%s, type %d: Heimdal read %d of %d of ours, "
                   "ours opened %d of %d of Heimdal's\n",
                   mode == KRBRELAY_SAFE ? "KRB-SAFE" : "KRB-PRIV", etype, read, MESSAGES, opened,
                   MESSAGES);
            failed += read != MESSAGES || opened != MESSAGES;
        }
    krb5_free_context(ctx);
    return failed != 0;
}
