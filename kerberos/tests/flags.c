/* Each of the four message calls as the process has it, which a preloaded library may have taken,
 * beside MIT's own code: the same call on two auth contexts that are alike, under each of the 16
 * combinations of MIT's four flags, with good and with bad input. Compared: the error, the data,
 * the replay data, and what is left in the auth context: numbers, flags, addresses, cipher state.
 * Of a message that was made: what MIT's code reads in it under the same flags.
 *
 * Prints 'CALL, SITUATION, FLAGS, type TYPE' with both sides where they differ, and the counts. */
#define _GNU_SOURCE
#include "../../c/tests/mit_library.h"
#include <dlfcn.h>
#include <errno.h>
#include <stdint.h>
#include <stdio.h>
#include <stdlib.h>
#include <string.h>
#include <time.h>

/* libkrb5 exports it, and krb5.h doesn't declare it. */
krb5_error_code krb5_auth_con_getivector(krb5_context, krb5_auth_context, krb5_pointer *);

enum call { MK_SAFE, RD_SAFE, MK_PRIV, RD_PRIV, CALLS };
enum side { MIT, HERE };
enum { DO_TIME = KRB5_AUTH_CONTEXT_DO_TIME, RET_TIME = KRB5_AUTH_CONTEXT_RET_TIME,
       DO_SEQUENCE = KRB5_AUTH_CONTEXT_DO_SEQUENCE, RET_SEQUENCE = KRB5_AUTH_CONTEXT_RET_SEQUENCE,
       FULL = DO_TIME | DO_SEQUENCE, TURNS = 2, ROOM = 4096, TEXT = 20, SAID = 1024 };

typedef krb5_error_code message_call(krb5_context, krb5_auth_context, const krb5_data *,
                                     krb5_data *, krb5_replay_data *);

static const char *const names[CALLS] = { "mk_safe", "rd_safe", "mk_priv", "rd_priv" };
static message_call *const here[CALLS] = {
    krb5_mk_safe, krb5_rd_safe, krb5_mk_priv, krb5_rd_priv
};
static message_call *mit[CALLS];
static uint8_t key[33], text[TEXT] = "one text and another";

/* The first members of MIT's struct _krb5_auth_context, to set its numbers; see end.c. */
struct layout {
    krb5_magic magic;
    krb5_address *remote_addr, *remote_port, *local_addr, *local_port;
    krb5_key key, send_subkey, recv_subkey;
    krb5_int32 flags;
    uint32_t remote_number, local_number;
};

enum input { GOOD, LAST_BYTE, CUT, EMPTY, ADDED, OTHER_KIND, PVNO, MSG_TYPE,
             REPEATED, OURS, OWN };

/* How the call is made, and of reading: how the message was made. */
struct situation {
    const char *name;
    int makes;                          /* of making, else of reading */
    uint32_t number;                    /* the next one: making, of its own; reading, of the peer */
    uint32_t sent;                      /* of reading: the number of the message */
    int sent_flags;                     /* of reading: the flags of its maker */
    int local, remote;                  /* hosts of 10.0.0.0/24, 0 for none */
    int without_replay, shift, chained, other_key, other_type, empty;
    enum input input;
};

#define MAKING(NAME, NUMBER, ...) \
    { .name = NAME, .number = NUMBER, .local = 1, .remote = 255, .makes = 1, __VA_ARGS__ }
#define READING(NAME, NUMBER, SENT, FLAGS, ...) \
    { .name = NAME, .number = NUMBER, .sent = SENT, .sent_flags = FLAGS, .local = 255, \
      .remote = 1, __VA_ARGS__ }

static const struct situation situations[] = {
    MAKING("good", 5, .input = GOOD),
    MAKING("number 0", 0, .input = GOOD),
    MAKING("number 127", 127, .input = GOOD),
    MAKING("number 2^31 - 1", 0x7fffffffu, .input = GOOD),
    MAKING("number 2^32 - 1", 0xffffffffu, .input = GOOD),
    MAKING("no user data", 5, .empty = 1),
    MAKING("no replay data", 5, .without_replay = 1),
    { .name = "no remote address", .makes = 1, .number = 5, .local = 1 },
    { .name = "no local address", .makes = 1, .number = 5, .remote = 255 },
    { .name = "no local address, no replay data", .makes = 1, .number = 5, .without_replay = 1 },
    MAKING("chained cipher state", 5, .chained = 1),
    READING("good", 5, 5, FULL, .input = GOOD),
    READING("good, made by the process's call", 5, 5, FULL, .input = OURS),
    READING("number 0", 0, 0, FULL, .input = GOOD),
    READING("number 0, made by the process's call", 0, 0, FULL, .input = OURS),
    READING("number 127", 127, 127, FULL, .input = GOOD),
    READING("number 128", 128, 128, FULL, .input = GOOD),
    READING("number 255", 255, 255, FULL, .input = GOOD),
    READING("number 2^16", 65536, 65536, FULL, .input = GOOD),
    READING("number 2^31 - 1", 0x7fffffffu, 0x7fffffffu, FULL, .input = GOOD),
    READING("number 2^31", 0x80000000u, 0x80000000u, FULL, .input = GOOD),
    READING("number 2^32 - 2^23", 0xff800000u, 0xff800000u, FULL, .input = GOOD),
    READING("number 2^32 - 1", 0xffffffffu, 0xffffffffu, FULL, .input = GOOD),
    READING("no user data", 5, 5, FULL, .empty = 1),
    READING("message without time", 5, 5, DO_SEQUENCE, .input = GOOD),
    READING("message without number", 5, 5, DO_TIME, .input = GOOD),
    READING("message without number, at 0", 0, 5, DO_TIME, .input = GOOD),
    READING("message without either", 5, 5, 0, .input = GOOD),
    READING("the next number", 5, 6, FULL, .input = GOOD),
    READING("the number before", 5, 4, FULL, .input = GOOD),
    READING("number 2^32 - 128 for 128", 128, 0xffffff80u, FULL, .input = GOOD),
    READING("repeated", 5, 5, FULL, .input = REPEATED),
    READING("last byte altered", 5, 5, FULL, .input = LAST_BYTE),
    READING("last byte missing", 5, 5, FULL, .input = CUT),
    READING("no message", 5, 5, FULL, .input = EMPTY),
    READING("a byte added", 5, 5, FULL, .input = ADDED),
    READING("the other kind", 5, 5, FULL, .input = OTHER_KIND),
    READING("pvno altered", 5, 5, FULL, .input = PVNO),
    READING("msg-type altered", 5, 5, FULL, .input = MSG_TYPE),
    READING("another key", 5, 5, FULL, .other_key = 1),
    READING("another encryption type", 5, 5, FULL, .other_type = 1),
    READING("an hour old", 5, 5, FULL, .shift = -3600),
    READING("an hour early", 5, 5, FULL, .shift = 3600),
    READING("no replay data", 5, 5, FULL, .without_replay = 1),
    READING("altered, no replay data", 5, 5, FULL, .without_replay = 1, .input = LAST_BYTE),
    READING("chained cipher state", 5, 5, FULL, .chained = 1),
    { .name = "another sender", .number = 5, .sent = 5, .sent_flags = FULL, .local = 255,
      .remote = 2 },
    { .name = "another receiver", .number = 5, .sent = 5, .sent_flags = FULL, .local = 254,
      .remote = 1 },
    { .name = "no remote address", .number = 5, .sent = 5, .sent_flags = FULL, .local = 255 },
    { .name = "no local address", .number = 5, .sent = 5, .sent_flags = FULL, .remote = 1 },
    { .name = "own message", .number = 5, .sent = 5, .local = 1, .input = OWN },
    { .name = "another sender, old, the next number", .number = 5, .sent = 6, .sent_flags = FULL,
      .local = 255, .remote = 2, .shift = -3600 },
    { .name = "old, the next number", .number = 5, .sent = 6, .sent_flags = FULL,
      .local = 255, .remote = 1, .shift = -3600 },
};

static void find_mit_calls(void)
{
    void *library = dlopen("libkrb5.so.3", RTLD_NOW | RTLD_NOLOAD);
    char name[32];
    int i;
    for (i = 0; i < CALLS && library != NULL; i++) {
        void *found;
        snprintf(name, sizeof name, "krb5_%s", names[i]);
        found = dlsym(library, name);
        memcpy(&mit[i], &found, sizeof found);
    }
    must(library == NULL || mit[RD_PRIV] == NULL ? ENOENT : 0, "MIT's library");
}

/* ---- auth contexts */

static krb5_auth_context context_of(int etype, int flags, int local, int remote, int chained,
                                    int other_key)
{
    uint8_t ours[4] = { 10, 0, 0, (uint8_t)local }, theirs[4] = { 10, 0, 0, (uint8_t)remote };
    krb5_address from = { KV5M_ADDRESS, ADDRTYPE_INET, 4, ours };
    krb5_address to = { KV5M_ADDRESS, ADDRTYPE_INET, 4, theirs };
    krb5_keyblock block = { KV5M_KEYBLOCK, etype, etype == 17 ? 16 : 32, key + other_key };
    krb5_auth_context ac = NULL;
    must(krb5_auth_con_init(ctx, &ac), "auth_con_init");
    must(krb5_auth_con_setuseruserkey(ctx, ac, &block), "setuseruserkey");
    must(krb5_auth_con_setaddrs(ctx, ac, local ? &from : NULL, remote ? &to : NULL), "setaddrs");
    must(krb5_auth_con_setflags(ctx, ac, flags), "setflags");
    if (chained)
        must(krb5_auth_con_initivector(ctx, ac), "initivector");
    return ac;
}

static void set_numbers(krb5_auth_context ac, uint32_t local, uint32_t remote)
{
    struct layout *layout = (struct layout *)(void *)ac;
    krb5_int32 numbers[2];
    layout->local_number = local;
    layout->remote_number = remote;
    must(krb5_auth_con_getlocalseqnumber(ctx, ac, &numbers[0]), "getlocalseqnumber");
    must(krb5_auth_con_getremoteseqnumber(ctx, ac, &numbers[1]), "getremoteseqnumber");
    must((uint32_t)numbers[0] != local || (uint32_t)numbers[1] != remote ? EINVAL : 0, "layout");
}

/* ---- what is said of a call */

static void say(char *to, const char *what, long value)
{
    size_t used = strlen(to);
    snprintf(to + used, SAID - used, " %s %ld", what, value);
}

static void say_error(char *to, const char *what, krb5_error_code error)
{
    long base = (long)ERROR_TABLE_BASE_krb5;
    say(to, what, error >= base && error < base + 256 ? (long)error - base : (long)error);
}

static void say_data(char *to, const krb5_data *out, const krb5_data *before, const uint8_t *wanted,
                     size_t len)
{
    if (out->data == before->data && out->length == before->length)
        say(to, "data untouched", 1);
    else if (out->data == NULL)
        say(to, "data none", out->length);
    else if (wanted == NULL)
        say(to, "data", 1);
    else
        say(to, "data right",
            out->length == len && (len == 0 || memcmp(out->data, wanted, len) == 0));
}

/* A moment by its kind where it was made now, by its value where it was read. */
static void say_replay(char *to, const krb5_replay_data *replay, int by_kind)
{
    static const krb5_replay_data untouched = { 0x55555555, 0x55555555, 0x55555555 };
    if (memcmp(replay, &untouched, sizeof untouched) == 0) {
        say(to, "replay data untouched", 1);
        return;
    }
    if (by_kind) {
        say(to, "time told", replay->timestamp != 0);
        say(to, "time near", labs((long)replay->timestamp - (long)time(NULL)) < 10);
    } else {
        say(to, "time", replay->timestamp);
        say(to, "usec", replay->usec);
    }
    say(to, "seq", (long)replay->seq);
}

static void say_context(char *to, krb5_auth_context ac, int by_kind)
{
    krb5_int32 flags = 0, local = 0, remote = 0;
    krb5_address *ours = NULL, *theirs = NULL;
    krb5_pointer state = NULL;
    int i;
    must(krb5_auth_con_getflags(ctx, ac, &flags), "getflags");
    must(krb5_auth_con_getlocalseqnumber(ctx, ac, &local), "getlocalseqnumber");
    must(krb5_auth_con_getremoteseqnumber(ctx, ac, &remote), "getremoteseqnumber");
    must(krb5_auth_con_getaddrs(ctx, ac, &ours, &theirs), "getaddrs");
    must(krb5_auth_con_getivector(ctx, ac, &state), "getivector");
    say(to, "| flags", flags);
    say(to, "local", (long)(uint32_t)local);
    say(to, "remote", (long)(uint32_t)remote);
    say(to, "addresses", ours != NULL ? ours->contents[3] : -1);
    say(to, "and", theirs != NULL ? theirs->contents[3] : -1);
    for (i = 0; state != NULL && !by_kind && i < 16; i++)
        say(to, "state", ((uint8_t *)state)[i]);
    if (ours != NULL)
        free(ours->contents);
    if (theirs != NULL)
        free(theirs->contents);
    free(ours);
    free(theirs);
}

/* ---- messages */

struct frame { uint8_t bytes[ROOM]; size_t len; };

static void keep(struct frame *frame, krb5_data *made)
{
    must(made->length > sizeof frame->bytes ? ERANGE : 0, "a long message");
    memcpy(frame->bytes, made->data, made->length);
    frame->len = made->length;
    krb5_free_data_contents(ctx, made);
}

/* pvno comes first, and msg-type second: 30 len a0 03 02 01 05 a1 03 02 01 TYPE. */
static void alter_head(struct frame *frame, size_t from)
{
    size_t at = (frame->bytes[1] & 0x80) != 0 ? 2u + (frame->bytes[1] & 0x7fu) : 2;
    at += (frame->bytes[at + 1] & 0x80) != 0 ? 2u + (frame->bytes[at + 1] & 0x7fu) : 2;
    frame->bytes[at + from] ^= 1;
}

static void alter(struct frame *frame, enum input input)
{
    if (input == LAST_BYTE)
        frame->bytes[frame->len - 1] ^= 1;
    if (input == CUT)
        frame->len--;
    if (input == EMPTY)
        frame->len = 0;
    if (input == ADDED)
        frame->bytes[frame->len++] = 0;
    if (input == PVNO)
        alter_head(frame, 4);
    if (input == MSG_TYPE)
        alter_head(frame, 9);
}

static size_t text_size(const struct situation *s)
{
    return s->empty ? 0 : TEXT;
}

/* What comes to a reader: the messages of one maker at 10.0.0.1, for 10.0.0.255. */
static void make_inputs(struct frame *frames, enum call call, const struct situation *s, int etype)
{
    int type = s->other_type ? 35 - etype : etype, i;
    enum call maker = (call == RD_SAFE) == (s->input == OTHER_KIND) ? MK_PRIV : MK_SAFE;
    krb5_auth_context ac = context_of(type, s->sent_flags, 1, 255, s->chained, s->other_key);
    krb5_data in = { KV5M_DATA, (unsigned)text_size(s), (char *)text };
    krb5_replay_data replay;
    set_numbers(ac, s->sent, 0);
    if (s->shift != 0)
        must(krb5_set_real_time(ctx, (krb5_timestamp)(time(NULL) + s->shift), 0), "set_real_time");
    for (i = 0; i < TURNS; i++) {
        krb5_data out = { 0 };
        must((s->input == OURS ? here : mit)[maker](ctx, ac, &in, &out, &replay), "mk");
        keep(&frames[i], &out);
        alter(&frames[i], s->input);
    }
    if (s->input == REPEATED)
        frames[1] = frames[0];
    if (s->shift != 0)
        must(krb5_set_real_time(ctx, (krb5_timestamp)time(NULL), 0), "set_real_time");
    krb5_auth_con_free(ctx, ac);
}

/* What MIT's code reads in a message that was made, with the maker's flags. */
static void say_back(char *to, krb5_auth_context reader, enum call call,
                     const struct situation *s, const krb5_data *made)
{
    krb5_data back = { 0 }, before = { 0 };
    krb5_replay_data replay;
    krb5_error_code error;
    memset(&replay, 0x55, sizeof replay);
    error = mit[call + 1](ctx, reader, made, &back, &replay);
    say_error(to, "| MIT reads", error);
    say_data(to, &back, &before, text, text_size(s));
    say_replay(to, &replay, 1);
    if (error == 0)
        krb5_free_data_contents(ctx, &back);
}

static void make_turn(char *to, krb5_auth_context ac, krb5_auth_context reader, enum call call,
                      const struct situation *s, enum side side)
{
    krb5_data in = { KV5M_DATA, (unsigned)text_size(s), (char *)text };
    krb5_data before = { KV5M_DATA, 77, (char *)text }, out = before;
    krb5_replay_data replay;
    krb5_error_code error;
    memset(&replay, 0x55, sizeof replay);
    error = (side == MIT ? mit : here)[call](ctx, ac, &in, &out,
                                             s->without_replay ? NULL : &replay);
    say_error(to, "|| error", error);
    say_data(to, &out, &before, NULL, 0);
    say_replay(to, &replay, 1);
    say_context(to, ac, 1);
    if (error != 0)
        return;
    say_back(to, reader, call, s, &out);
    krb5_free_data_contents(ctx, &out);
}

static void make_all(char *to, enum call call, const struct situation *s, int flags, int etype,
                     enum side side)
{
    krb5_auth_context ac = context_of(etype, flags, s->local, s->remote, s->chained, 0);
    krb5_auth_context reader = context_of(etype, flags, 255, s->local, s->chained, 0);
    int i;
    set_numbers(ac, s->number, 0);
    set_numbers(reader, 0, s->number);
    for (i = 0; i < TURNS; i++)
        make_turn(to, ac, reader, call, s, side);
    krb5_auth_con_free(ctx, ac);
    krb5_auth_con_free(ctx, reader);
}

/* Messages of the context itself, which come back to it. */
static void make_own(struct frame *frames, krb5_auth_context ac, enum call call,
                     const struct situation *s, enum side side)
{
    krb5_data in = { KV5M_DATA, (unsigned)text_size(s), (char *)text };
    krb5_replay_data replay;
    int i;
    for (i = 0; i < TURNS; i++) {
        krb5_data out = { 0 };
        must((side == MIT ? mit : here)[call - 1](ctx, ac, &in, &out, &replay), "mk");
        keep(&frames[i], &out);
    }
}

static void read_turn(char *to, krb5_auth_context ac, enum call call, const struct situation *s,
                      enum side side, struct frame *frame)
{
    krb5_data in = { KV5M_DATA, (unsigned)frame->len, (char *)frame->bytes };
    krb5_data before = { KV5M_DATA, 77, (char *)text }, out = before;
    krb5_replay_data replay;
    krb5_error_code error;
    memset(&replay, 0x55, sizeof replay);
    error = (side == MIT ? mit : here)[call](ctx, ac, &in, &out,
                                             s->without_replay ? NULL : &replay);
    say_error(to, "|| error", error);
    say_data(to, &out, &before, text, text_size(s));
    say_replay(to, &replay, s->input == OWN);
    say_context(to, ac, s->input == OWN);
    if (error == 0)
        krb5_free_data_contents(ctx, &out);
}

static void read_all(char *to, enum call call, const struct situation *s, int flags, int etype,
                     enum side side, struct frame *frames)
{
    krb5_auth_context ac = context_of(etype, flags, s->local, s->remote, s->chained, 0);
    int i;
    set_numbers(ac, s->input == OWN ? s->sent : 0, s->number);
    if (s->input == OWN)
        make_own(frames, ac, call, s, side);
    for (i = 0; i < TURNS; i++)
        read_turn(to, ac, call, s, side, &frames[i]);
    krb5_auth_con_free(ctx, ac);
}

/* ---- all of them */

static void print_flags(int flags)
{
    printf("%s%s%s%s", flags & DO_TIME ? "DO_TIME " : "", flags & RET_TIME ? "RET_TIME " : "",
           flags & DO_SEQUENCE ? "DO_SEQUENCE " : "", flags & RET_SEQUENCE ? "RET_SEQUENCE " : "");
}

/* Whether both sides did the same. */
static int compare(enum call call, const struct situation *s, int flags, int etype)
{
    static struct frame frames[TURNS];
    char said[2][SAID] = { "", "" };
    enum side side;
    if (!s->makes)
        make_inputs(frames, call, s, etype);
    for (side = MIT; side <= HERE; side++) {
        if (s->makes)
            make_all(said[side], call, s, flags, etype, side);
        else
            read_all(said[side], call, s, flags, etype, side, frames);
    }
    if (strcmp(said[MIT], said[HERE]) == 0)
        return 1;
    printf("differs: %s, %s, flags ", names[call], s->name);
    print_flags(flags);
    printf("type %d\n    MIT:  %s\n    here: %s\n", etype, said[MIT], said[HERE]);
    return 0;
}

static int compare_all(enum call call, const struct situation *s, int *runs)
{
    int etype, flags, same = 0;
    for (etype = 17; etype <= 18; etype++)
        for (flags = 0; flags < 16; flags++) {
            same += compare(call, s, flags, etype);
            (*runs)++;
        }
    return same;
}

int main(void)
{
    size_t i;
    int call, runs = 0, same = 0;
    must(krb5_init_context(&ctx), "init_context");
    find_mit_calls();
    for (i = 0; i < sizeof key; i++)
        key[i] = (uint8_t)(i * 3 + 1);
    for (call = 0; call < CALLS; call++)
        for (i = 0; i < sizeof situations / sizeof situations[0]; i++)
            if (situations[i].makes == (call == MK_SAFE || call == MK_PRIV))
                same += compare_all((enum call)call, &situations[i], &runs);
    printf("%s: %d runs, %d alike\n", here[0] == mit[0] ? "MIT's code alone" : "preloaded", runs,
           same);
    krb5_free_context(ctx);
    return 0;
}
