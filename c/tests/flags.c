/* Messages between MIT's library and ours under each of the 16 combinations of MIT's four flags
 * (DO_TIME, RET_TIME, DO_SEQUENCE, RET_SEQUENCE), both ways: a row is a combination and a direction,
 * and holds where MIT reads each message of ours, or ours opens each of MIT's and tells what it
 * carries. MIT's end has no remote address, as its own programs have none, so ours isn't told one;
 * numbers begin at 0, which MIT leaves out of its messages.
 *
 *   flags          counts the rows that hold
 *   flags table    prints them, with what krbrelay_opener_unseal answers to MIT's first message */
#include "check.h"
#include "krbrelay.h"
#include "mit_library.h"
#include "session.h"

#include <stdlib.h>
#include <string.h>
#include <time.h>

enum { MESSAGES = 3, DO_TIME = KRB5_AUTH_CONTEXT_DO_TIME, RET_TIME = KRB5_AUTH_CONTEXT_RET_TIME,
       DO_SEQUENCE = KRB5_AUTH_CONTEXT_DO_SEQUENCE, RET_SEQUENCE = KRB5_AUTH_CONTEXT_RET_SEQUENCE };

static uint8_t key[32], frame[KRBRELAY_FRAME_LIMIT], data[KRBRELAY_FRAME_LIMIT];
static const char text[] = "one text and another";

/* MIT's end at 10.0.0.1, with a key, flags, and no remote address. */
static krb5_auth_context mit_end(int etype, int flags)
{
    uint8_t bytes[4] = { 10, 0, 0, 1 };
    krb5_address local = { KV5M_ADDRESS, ADDRTYPE_INET, 4, bytes };
    krb5_keyblock block = { KV5M_KEYBLOCK, etype, (unsigned)key_size(etype), key };
    krb5_auth_context c = NULL;
    must(krb5_auth_con_init(ctx, &c), "auth_con_init");
    must(krb5_auth_con_setuseruserkey(ctx, c, &block), "setuseruserkey");
    must(krb5_auth_con_setaddrs(ctx, c, &local, NULL), "setaddrs");
    must(krb5_auth_con_setflags(ctx, c, flags), "setflags");
    return c;
}

static struct krbrelay_moment read_clock(void)
{
    struct timespec t;
    clock_gettime(CLOCK_REALTIME, &t);
    return moment((uint64_t)t.tv_sec, (uint32_t)(t.tv_nsec / 1000));
}

/* What a program that has MIT's flags demands of a message: the time where MIT checks it, and the
 * number where MIT checks it. */
static struct krbrelay_demand flagged_demand(int flags, uint64_t number)
{
    struct krbrelay_demand d = { 0 };
    if (flags & DO_TIME) {
        d.how_time = KRBRELAY_REQUIRED;
        d.skew = 300;
    }
    if (flags & DO_SEQUENCE) {
        d.how_number = KRBRELAY_ABSENT_IS_0;
        d.number = number;
    }
    return d;
}

/* MIT reads what ours makes. */
static int ours_to_mit(uint32_t mode, int etype, int flags)
{
    struct krbrelay_session session = session_of(mode, 0);
    struct krbrelay_sealer s = { 0 };
    krb5_auth_context mit = mit_end(etype, flags);
    int read = 0;
    CHECK(krbrelay_sealer_new(&s, etype, key, key_size(etype), &session) == KRBRELAY_OK);
    for (int i = 0; i < MESSAGES; i++) {
        struct krbrelay_moment now = read_clock();
        uint8_t confounder[16] = { (uint8_t)i };
        size_t size = 0;
        krb5_data in, out = { 0 };
        krb5_replay_data replay = { 0 };
        krb5_error_code error;
        CHECK(krbrelay_sealer_seal(&s, (const uint8_t *)text, sizeof text, &now, confounder, frame,
                                   sizeof frame, &size) == KRBRELAY_OK);
        in = (krb5_data){ KV5M_DATA, (unsigned)size, (char *)frame };
        error = mode == KRBRELAY_SAFE ? krb5_rd_safe(ctx, mit, &in, &out, &replay)
                                      : krb5_rd_priv(ctx, mit, &in, &out, &replay);
        read += error == 0 && out.length == sizeof text && memcmp(out.data, text, sizeof text) == 0;
        krb5_free_data_contents(ctx, &out);
    }
    krbrelay_sealer_free(&s);
    krb5_auth_con_free(ctx, mit);
    return read == MESSAGES;
}

/* What is reported of MIT's message is what its flags have it write. */
static int is_told(const struct krbrelay_carried *c, int flags, uint32_t number)
{
    int timed = (flags & (DO_TIME | RET_TIME)) != 0;
    int numbered = (flags & (DO_SEQUENCE | RET_SEQUENCE)) != 0 && number != 0;
    return (c->has_seconds != 0) == timed && (c->has_microseconds != 0) == timed &&
           (c->has_number != 0) == numbered && (!numbered || c->number == number) &&
           c->sender.len == 4 && c->sender.bytes[3] == 1;
}

/* Ours opens what MIT makes, by krbrelay_opener_open. Also told: what the call with fixed demands
 * answers to the first of them. */
static int mit_to_ours(uint32_t mode, int etype, int flags, enum krbrelay_answer *strict)
{
    struct krbrelay_expect expect = {
        .mode = mode, .sender = host(1), .require_time = 1, .skew = 300
    };
    struct krbrelay_opener o = { 0 };
    krb5_auth_context mit = mit_end(etype, flags);
    int opened = 0;
    CHECK(krbrelay_opener_new(&o, etype, key, key_size(etype), &expect) == KRBRELAY_OK);
    for (unsigned i = 0; i < MESSAGES; i++) {
        krb5_data in = { KV5M_DATA, sizeof text, (char *)(uintptr_t)text }, out = { 0 };
        krb5_replay_data replay = { 0 };
        struct krbrelay_demand demand = flagged_demand(flags, i);
        struct krbrelay_moment now;
        struct krbrelay_carried c;
        size_t size = 0;
        must(mode == KRBRELAY_SAFE ? krb5_mk_safe(ctx, mit, &in, &out, &replay)
                                   : krb5_mk_priv(ctx, mit, &in, &out, &replay), "mk");
        now = read_clock();
        if (i == 0)
            *strict = krbrelay_opener_unseal(&o, (uint8_t *)out.data, out.length, 0, &now, data,
                                             sizeof data, &size);
        opened += krbrelay_opener_open(&o, (uint8_t *)out.data, out.length, &demand, &now, data,
                                       sizeof data, &size, &c) == KRBRELAY_OK &&
                  size == sizeof text && memcmp(data, text, size) == 0 && is_told(&c, flags, i);
        krb5_free_data_contents(ctx, &out);
    }
    krbrelay_opener_free(&o);
    krb5_auth_con_free(ctx, mit);
    return opened == MESSAGES;
}

static void print_row(int flags, int read, int opened, enum krbrelay_answer strict)
{
    printf("| %s | %s | %s | %s | %s | %s | %d |\n", flags & DO_TIME ? "x" : "",
           flags & RET_TIME ? "x" : "", flags & DO_SEQUENCE ? "x" : "",
           flags & RET_SEQUENCE ? "x" : "", read ? "read" : "refused", opened ? "opened" : "refused",
           (int)strict);
}

int main(int argc, char **argv)
{
    static const int bits[4] = { DO_TIME, RET_TIME, DO_SEQUENCE, RET_SEQUENCE };
    int rows = 0;
    setenv("KRB5_CONFIG", "/dev/null", 1);
    setenv("KRB5RCACHENAME", "none:", 1);
    must(krb5_init_context(&ctx), "init_context");
    for (int i = 0; i < 32; i++)
        key[i] = (uint8_t)(i * 3);
    for (int combination = 0; combination < 16; combination++) {
        int flags = 0, read = 1, opened = 1;
        enum krbrelay_answer strict = KRBRELAY_OK;
        for (int i = 0; i < 4; i++)
            flags |= combination >> i & 1 ? bits[i] : 0;
        for (uint32_t mode = KRBRELAY_SAFE; mode <= KRBRELAY_PRIV; mode++)
            for (int etype = 17; etype <= 18; etype++) {
                read &= ours_to_mit(mode, etype, flags);
                opened &= mit_to_ours(mode, etype, flags, &strict);
                CHECK(strict != KRBRELAY_OK);
            }
        CHECK(read);
        CHECK(opened);
        rows += read + opened;
        if (argc > 1 && strcmp(argv[1], "table") == 0)
            print_row(flags, read, opened, strict);
    }
    krb5_free_context(ctx);
    printf("flags: %d of 32 rows\n", rows);
    return check_status("flags");
}
