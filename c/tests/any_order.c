/* The example any_order.c takes each of MIT's messages once: of a sender that writes numbers each one,
 * though it leaves the number 0 out; of one that writes none only the first, so that no repeat passes. */
#define main example_main
#include "../examples/any_order.c"
#undef main

#include "check.h"
#include "mit_library.h"

#include <stdlib.h>
#include <string.h>
#include <time.h>

enum { MESSAGES = 5, TIMES = 3 };

/* Alice's end by MIT's library, with these flags, whose first number is 0. */
static krb5_auth_context end_of_alice(int flags)
{
    uint8_t address[4] = { 10, 0, 0, 1 }, session_key[sizeof key];
    krb5_address local = { KV5M_ADDRESS, ADDRTYPE_INET, sizeof address, address };
    krb5_keyblock block = { KV5M_KEYBLOCK, 17, sizeof session_key, session_key };
    krb5_auth_context c = NULL;
    memcpy(session_key, key, sizeof key);
    must(krb5_auth_con_init(ctx, &c), "auth_con_init");
    must(krb5_auth_con_setuseruserkey(ctx, c, &block), "setuseruserkey");
    must(krb5_auth_con_setaddrs(ctx, c, &local, NULL), "setaddrs");
    must(krb5_auth_con_setflags(ctx, c, flags), "setflags");
    return c;
}

/* A copy of the message of one byte, the character i. */
static krb5_data message_of(krb5_auth_context mit, int mode, char i)
{
    krb5_data text = { KV5M_DATA, 1, &i }, frame = { 0 };
    krb5_replay_data replay = { 0 };
    must(mode == KRBRELAY_SAFE ? krb5_mk_safe(ctx, mit, &text, &frame, &replay)
                               : krb5_mk_priv(ctx, mit, &text, &frame, &replay), "mk");
    return frame;
}

/* How often each message was taken, of three copies of each, the last message first. */
static void bring_all(const krb5_data *frames, uint32_t mode, int *taken)
{
    struct krbrelay_expect expect = { .mode = mode };
    struct krbrelay_opener opener = KRBRELAY_INIT;
    struct krbrelay_window window = KRBRELAY_INIT;
    CHECK(krbrelay_opener_new(&opener, 17, key, sizeof key, &expect) == KRBRELAY_OK);
    for (int n = MESSAGES * TIMES - 1; n >= 0; n--) {
        uint8_t text[64];
        int i = n % MESSAGES;
        struct arrival it = { .frame = (const uint8_t *)frames[i].data, .len = frames[i].length,
                              .text = text, .room = sizeof text };
        enum krbrelay_answer answer;
        CHECK(krbrelay_now(&it.now) == KRBRELAY_OK);
        answer = take_once(&opener, &window, &it);
        CHECK(answer == KRBRELAY_OK || answer == KRBRELAY_REPEATED);
        CHECK(answer != KRBRELAY_OK || (it.size == 1 && text[0] == 'a' + i));
        taken[i] += answer == KRBRELAY_OK;
    }
    krbrelay_opener_free(&opener);
}

/* Which messages are taken of a sender with these flags: all, or the one that came first. */
static void from_mit(uint32_t mode, int flags, int all)
{
    krb5_auth_context mit = end_of_alice(flags);
    krb5_data frames[MESSAGES];
    int taken[MESSAGES] = { 0 };
    for (int i = 0; i < MESSAGES; i++)
        frames[i] = message_of(mit, (int)mode, (char)('a' + i));
    bring_all(frames, mode, taken);
    for (int i = 0; i < MESSAGES; i++)
        CHECK(taken[i] == (all || i == MESSAGES - 1));
    for (int i = 0; i < MESSAGES; i++)
        krb5_free_data_contents(ctx, &frames[i]);
    krb5_auth_con_free(ctx, mit);
}

int main(int count, char **words)
{
    check_only(1, count, words);
    must(krb5_init_context(&ctx), "init_context");
    CHECK(example_main() == 0);
    for (uint32_t mode = KRBRELAY_SAFE; mode <= KRBRELAY_PRIV; mode++) {
        RUN(from_mit(mode, KRB5_AUTH_CONTEXT_DO_SEQUENCE, 1));
        RUN(from_mit(mode, KRB5_AUTH_CONTEXT_DO_SEQUENCE | KRB5_AUTH_CONTEXT_DO_TIME, 1));
        RUN(from_mit(mode, KRB5_AUTH_CONTEXT_DO_TIME, 0));
        RUN(from_mit(mode, 0, 0));
    }
    krb5_free_context(ctx);
    return check_status("any_order");
}
