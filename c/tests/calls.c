/* The calls of the library that proofs don't reach: clock, randomness, addresses, answers, and what
 * is asked of a handle and the processor. Built with -Wl,--wrap=clock_gettime -Wl,--wrap=getrandom:
 * a case sets what these answer. */
#define _GNU_SOURCE
#include "check.h"
#include "frames.h"
#include "krbrelay.h"
#include "session.h"

#include <arpa/inet.h>
#include <errno.h>
#include <netinet/in.h>
#include <string.h>
#include <sys/random.h>
#include <sys/socket.h>
#include <sys/un.h>
#include <time.h>

static uint8_t frame[KRBRELAY_FRAME_SIZE(100)], text[KRBRELAY_FRAME_SIZE(100)];

/* ---- the system's calls */

static int is_real;                 /* the system's own answer */
static int clock_fails;
static struct timespec clock_shows;
static int draws[8];                /* what getrandom answers: bytes, or an error below 0; the rest: all */
static size_t drawn;
static uint8_t next_byte;           /* what it writes: 0, or rising bytes */
static int bytes_rise;

int __real_clock_gettime(clockid_t clock, struct timespec *now);
int __wrap_clock_gettime(clockid_t clock, struct timespec *now);
ssize_t __real_getrandom(void *bytes, size_t len, unsigned flags);
ssize_t __wrap_getrandom(void *bytes, size_t len, unsigned flags);

int __wrap_clock_gettime(clockid_t clock, struct timespec *now)
{
    if (is_real)
        return __real_clock_gettime(clock, now);
    CHECK(clock == CLOCK_REALTIME);
    *now = clock_shows;
    return clock_fails ? -1 : 0;
}

ssize_t __wrap_getrandom(void *bytes, size_t len, unsigned flags)
{
    int answer = drawn < sizeof draws / sizeof draws[0] ? draws[drawn] : 0;
    size_t count = answer > 0 ? (size_t)answer : len;
    if (is_real)
        return __real_getrandom(bytes, len, flags);
    CHECK(flags == 0 && count <= len);
    drawn++;
    if (answer < 0) {
        errno = -answer;
        return answer == -ERANGE ? 0 : -1;      /* ERANGE stands for no bytes at all */
    }
    for (size_t i = 0; i < count; i++)
        ((uint8_t *)bytes)[i] = bytes_rise ? next_byte++ : 0;
    return (ssize_t)count;
}

/* The moment of frames.h, and a confounder of zeros drawn at once. */
static void set_system(void)
{
    memset(draws, 0, sizeof draws);
    is_real = clock_fails = bytes_rise = next_byte = 0;
    drawn = 0;
    clock_shows.tv_sec = SECS;
    clock_shows.tv_nsec = USEC * 1000 + 999;
}

/* ---- the clock */

static void clock_of_the_system(void)
{
    struct krbrelay_moment now = { 0, 0, 9 };
    struct timespec before, after;
    is_real = 1;
    CHECK(clock_gettime(CLOCK_REALTIME, &before) == 0);
    CHECK(krbrelay_now(&now) == KRBRELAY_OK);
    CHECK(clock_gettime(CLOCK_REALTIME, &after) == 0);
    CHECK(now.seconds >= (uint64_t)before.tv_sec && now.seconds <= (uint64_t)after.tv_sec);
    CHECK(now.microseconds < 1000000 && now.reserved == 0);
}

static enum krbrelay_answer now_at(time_t seconds, long nanoseconds, struct krbrelay_moment *now)
{
    set_system();
    clock_shows.tv_sec = seconds;
    clock_shows.tv_nsec = nanoseconds;
    return krbrelay_now(now);
}

static void clocks(void)
{
    struct krbrelay_moment now = { 1, 2, 3 };
    CHECK(now_at(-1, 0, &now) == KRBRELAY_CLOCK);
    CHECK(now_at(253402300800, 0, &now) == KRBRELAY_CLOCK);     /* the year 10000 */
    set_system();
    clock_fails = 1;
    CHECK(krbrelay_now(&now) == KRBRELAY_CLOCK);
    CHECK(now.seconds == 1 && now.microseconds == 2 && now.reserved == 3);
    CHECK(now_at(0, 0, &now) == KRBRELAY_OK && now.seconds == 0 && now.microseconds == 0);
    CHECK(now_at(253402300799, 999999999, &now) == KRBRELAY_OK);
    CHECK(now.seconds == 253402300799 && now.microseconds == 999999 && now.reserved == 0);
    CHECK(now_at(SECS, 999, &now) == KRBRELAY_OK && now.seconds == SECS && now.microseconds == 0);
    clock_of_the_system();
}

/* ---- sealing */

static struct krbrelay_sealer sealer_at_7(int etype, uint32_t mode)
{
    struct krbrelay_session session = session_of(mode, 7);
    struct krbrelay_sealer s = KRBRELAY_INIT;
    CHECK(krbrelay_sealer_new(&s, etype, keys[etype - 17], key_size(etype), &session) == KRBRELAY_OK);
    return s;
}

static enum krbrelay_answer seal_now(struct krbrelay_sealer *s, size_t room, size_t *size)
{
    return krbrelay_sealer_seal_now(s, (const uint8_t *)"Dhi", 3, frame, room, size);
}

/* What is sealed is the frame of another sealer, at the clock's moment and with what was drawn. */
static void frames_of_another_sealer(void)
{
    static const struct { int etype; uint32_t mode; const uint8_t *frame; size_t len; } known[] = {
        { 17, KRBRELAY_SAFE, safe_17, sizeof safe_17 }, { 18, KRBRELAY_SAFE, safe_18, sizeof safe_18 },
        { 17, KRBRELAY_PRIV, priv_17, sizeof priv_17 }, { 18, KRBRELAY_PRIV, priv_18, sizeof priv_18 },
    };
    for (size_t i = 0; i < sizeof known / sizeof known[0]; i++) {
        struct krbrelay_sealer s = sealer_at_7(known[i].etype, known[i].mode);
        size_t size = 0;
        uint64_t next = 0;
        set_system();
        CHECK(seal_now(&s, sizeof frame, &size) == KRBRELAY_OK);
        CHECK(size == known[i].len && memcmp(frame, known[i].frame, size) == 0);
        CHECK(krbrelay_sealer_next(&s, &next) == KRBRELAY_OK && next == 8);
        krbrelay_sealer_free(&s);
    }
}

/* What is sealed: user data, a record of each kind, and a peer's user data. */
static const struct { uint32_t kind; uint8_t body[10]; size_t len; int is_of_peer; } sealed[] = {
    { 0, "Dhi", 3, 0 }, { KRBRELAY_TEXT, "hi", 2, 0 }, { KRBRELAY_BATCH, { 0, 0, 0, 1, 'a', 0, 0, 0, 1, 'b' }, 10, 0 },
    { KRBRELAY_CLOSE, "", 0, 0 }, { 0, "Dhi", 3, 1 },
};

/* Seals one of these by a confounder at a moment, or without a confounder by what the system has. */
static void seal_one(size_t i, const struct krbrelay_moment *at, const uint8_t *confounder, uint8_t *to, size_t *size)
{
    const uint8_t *body = sealed[i].body;
    size_t len = sealed[i].len, room = sizeof frame;
    struct krbrelay_sealer s = sealer_at_7(18, KRBRELAY_PRIV);
    struct krbrelay_peer p = KRBRELAY_INIT;
    enum krbrelay_answer answer;
    CHECK(peer_of(&p, 18, keys[1], KRBRELAY_PRIV, 1) == KRBRELAY_OK);
    if (sealed[i].is_of_peer && confounder == NULL)
        answer = krbrelay_peer_seal_now(&p, body, len, to, room, size);
    else if (sealed[i].is_of_peer)
        answer = krbrelay_peer_seal(&p, body, len, at, confounder, to, room, size);
    else if (sealed[i].kind != 0 && confounder == NULL)
        answer = krbrelay_sealer_seal_record_now(&s, sealed[i].kind, body, len, to, room, size);
    else if (sealed[i].kind != 0)
        answer = krbrelay_sealer_seal_record(&s, sealed[i].kind, body, len, at, confounder, to, room, size);
    else if (confounder == NULL)
        answer = krbrelay_sealer_seal_now(&s, body, len, to, room, size);
    else
        answer = krbrelay_sealer_seal(&s, body, len, at, confounder, to, room, size);
    CHECK(answer == KRBRELAY_OK);
    krbrelay_sealer_free(&s);
    krbrelay_peer_free(&p);
}

/* Each call that reads the system seals what the one beside it does at the clock's moment, by the bytes that were
 * drawn in their order: interrupted and short draws are gone on with. */
static void draws_that_go_on(void)
{
    static const int answers[][8] = { { 16 }, { -EINTR, 16 }, { 1, 15 }, { 5, -EINTR, -EINTR, 11 },
                                      { 1, 1, 1, 1, 1, 1, 1, 9 } };
    uint8_t confounder[16], expected[sizeof frame];
    struct krbrelay_moment at = moment(SECS, USEC);
    for (uint8_t i = 0; i < 16; i++)
        confounder[i] = i;
    for (size_t i = 0; i < sizeof sealed / sizeof sealed[0]; i++)
        for (size_t k = 0; k < sizeof answers / sizeof answers[0]; k++) {
            size_t size = 0, len = 0;
            set_system();
            bytes_rise = 1;
            memcpy(draws, answers[k], sizeof draws);
            seal_one(i, &at, confounder, expected, &len);
            seal_one(i, NULL, NULL, frame, &size);
            CHECK(next_byte == 16 && size == len && memcmp(frame, expected, len) == 0);
        }
}

/* A peer seals so too: its frame is the one of a sealer of its session, and its number rises. */
static void frames_of_a_peer(void)
{
    for (int etype = 17; etype <= 18; etype++) {
        struct krbrelay_session session = session_of(KRBRELAY_PRIV, 7);
        struct krbrelay_sealer s = KRBRELAY_INIT;
        struct krbrelay_peer p = KRBRELAY_INIT;
        uint8_t expected[sizeof frame];
        size_t size = 0, len = 0;
        uint64_t numbers[2] = { 0, 0 };
        tell_receiver(&session);
        IS(krbrelay_sealer_new(&s, etype, keys[etype - 17], key_size(etype), &session));
        CHECK(peer_of(&p, etype, keys[etype - 17], KRBRELAY_PRIV, 1) == KRBRELAY_OK);
        set_system();
        CHECK(seal_now(&s, sizeof frame, &len) == KRBRELAY_OK);
        memcpy(expected, frame, len);
        set_system();
        IS(krbrelay_peer_seal_now(&p, (const uint8_t *)"Dhi", 3, frame, sizeof frame, &size));
        CHECK(size == len && memcmp(frame, expected, len) == 0);
        CHECK(krbrelay_peer_state(&p, &numbers[0], &numbers[1]) == KRBRELAY_OK);
        CHECK(numbers[0] == 8 && numbers[1] == 7);
        krbrelay_sealer_free(&s);
        krbrelay_peer_free(&p);
    }
}

/* Nothing is sealed, by any of the calls. */
static void is_not_sealed(enum krbrelay_answer expected)
{
    struct krbrelay_sealer s = sealer_at_7(17, KRBRELAY_PRIV);
    struct krbrelay_peer p = KRBRELAY_INIT;
    size_t size = 99;
    uint64_t next = 0, number = 0;
    struct krbrelay_unsealed all[3] = { { text, 3, { 0 }, { 0 } }, { text, 3, { 0 }, { 0 } }, { text, 3, { 0 }, { 0 } } };
    size_t sizes[KRBRELAY_MOST_MESSAGES] = { 0 };
    CHECK(peer_of(&p, 17, keys[0], KRBRELAY_PRIV, 1) == KRBRELAY_OK);
    frame[0] = 0xee;
    CHECK(seal_now(&s, sizeof frame, &size) == expected);
    drawn = 0;
    CHECK(krbrelay_sealer_seal_record_now(&s, KRBRELAY_TEXT, (const uint8_t *)"hi", 2, frame,
                                          sizeof frame, &size) == expected);
    drawn = 0;
    CHECK(krbrelay_peer_seal_now(&p, (const uint8_t *)"Dhi", 3, frame, sizeof frame, &size)
          == expected);
    drawn = 0;
    CHECK(krbrelay_sealer_seal_many_now(&s, all, 3, frame, sizeof frame, sizes, &size) == expected);
    drawn = 0;
    CHECK(krbrelay_peer_seal_many_now(&p, all, 3, frame, sizeof frame, sizes, &size) == expected);
    CHECK(size == 99 && frame[0] == 0xee && sizes[0] == 0);
    CHECK(krbrelay_peer_state(&p, &next, &number) == KRBRELAY_OK && next == 7);
    krbrelay_peer_free(&p);
    CHECK(krbrelay_sealer_next(&s, &next) == KRBRELAY_OK && next == 7);
    krbrelay_sealer_free(&s);
}

static void faults_of_the_system(void)
{
    static const int faults[][8] = { { -ENOSYS }, { -EAGAIN }, { -ERANGE }, { 8, -EFAULT },
                                     { -EINTR, -ENOSYS } };
    for (size_t i = 0; i < sizeof faults / sizeof faults[0]; i++) {
        set_system();
        memcpy(draws, faults[i], sizeof draws);
        is_not_sealed(KRBRELAY_RANDOM);
    }
    set_system();
    clock_fails = 1;
    draws[0] = -ENOSYS;
    is_not_sealed(KRBRELAY_CLOCK);
    CHECK(drawn == 0);
}

/* What krbrelay_sealer_seal and _seal_record answer comes after the system's. */
static void answers_of_sealing(void)
{
    struct krbrelay_sealer s = sealer_at_7(17, KRBRELAY_PRIV), none = KRBRELAY_INIT;
    struct krbrelay_peer p = KRBRELAY_INIT;
    size_t size = 99;
    set_system();
    CHECK(krbrelay_peer_seal_now(&p, text, 3, frame, sizeof frame, &size) == KRBRELAY_EMPTY);
    CHECK(peer_of(&p, 17, keys[0], KRBRELAY_PRIV, 1) == KRBRELAY_OK);
    CHECK(krbrelay_peer_seal_now(&p, text, 3, frame, 3, &size) == KRBRELAY_ROOM);
    krbrelay_peer_free(&p);
    CHECK(seal_now(&none, sizeof frame, &size) == KRBRELAY_EMPTY);
    CHECK(seal_now(&s, 3, &size) == KRBRELAY_ROOM);
    CHECK(krbrelay_sealer_seal_record_now(&s, 4, NULL, 0, frame, sizeof frame, &size)
          == KRBRELAY_RECORD);
    CHECK(krbrelay_sealer_seal_record_now(&none, KRBRELAY_CLOSE, NULL, 0, frame, sizeof frame, &size)
          == KRBRELAY_EMPTY);
    krbrelay_sealer_wipe(&s);
    CHECK(seal_now(&s, sizeof frame, &size) == KRBRELAY_WIPED && size == 99);
    krbrelay_sealer_free(&s);
}

/* Several messages now: each opens at its number and is under a confounder of its own, and over 64 are refused
 * before the system is asked. */
static void several_now(void)
{
    static uint8_t frames[65 * 500];
    struct krbrelay_sealer s = sealer_at_7(18, KRBRELAY_PRIV);
    struct krbrelay_expect expect = expect_of(KRBRELAY_PRIV);
    struct krbrelay_opener o = KRBRELAY_INIT;
    struct krbrelay_unsealed all[65];
    struct krbrelay_moment now = KRBRELAY_INIT;
    size_t sizes[KRBRELAY_MOST_MESSAGES], failed = 99, at = 0, size = 0;
    for (size_t i = 0; i < 65; i++)
        all[i] = (struct krbrelay_unsealed){ text, 3, { 1, 2, 0 }, { 0 } };
    memcpy(text, "Dhi", 3);
    is_real = 1;
    CHECK(krbrelay_opener_new(&o, 18, keys[1], 32, &expect) == KRBRELAY_OK);
    CHECK(krbrelay_sealer_seal_many_now(&s, all, 65, frames, sizeof frames, sizes, &failed) == KRBRELAY_ARGUMENT);
    CHECK(krbrelay_sealer_seal_many_now(&s, all, 9, frames, 9, sizes, &failed) == KRBRELAY_ROOM && failed == 99);
    CHECK(krbrelay_sealer_seal_many_now(&s, all, 64, frames, sizeof frames, sizes, &failed) == KRBRELAY_OK);
    CHECK(krbrelay_now(&now) == KRBRELAY_OK);
    for (size_t i = 0; i < 64; at += sizes[i], i++) {
        uint8_t opened[500];
        CHECK(krbrelay_opener_unseal(&o, frames + at, sizes[i], 7 + i, &now, opened, sizeof opened, &size) == KRBRELAY_OK);
        CHECK(size == 3 && memcmp(opened, "Dhi", 3) == 0);
        CHECK(i == 0 || memcmp(frames + at + sizes[i] - 60, frames + at - 60, 60) != 0);
    }
    krbrelay_opener_free(&o);
    krbrelay_sealer_free(&s);
    is_real = 0;
}

/* A receiver takes what is sealed as a record, by the system's own clock and randomness. */
static void records(void)
{
    struct krbrelay_expect expect = expect_of(KRBRELAY_PRIV);
    struct krbrelay_sealer s = sealer_at_7(18, KRBRELAY_PRIV);
    struct krbrelay_receiver r = KRBRELAY_INIT;
    struct krbrelay_moment now = KRBRELAY_INIT;
    size_t len = 0, size = 0;
    uint32_t kind = 0;
    is_real = 1;
    CHECK(krbrelay_receiver_new(&r, 18, keys[1], 32, &expect, 7, 0) == KRBRELAY_OK);
    CHECK(krbrelay_sealer_seal_record_now(&s, KRBRELAY_TEXT, (const uint8_t *)"hi", 2, frame,
                                          sizeof frame, &len) == KRBRELAY_OK);
    CHECK(krbrelay_now(&now) == KRBRELAY_OK);
    IS(krbrelay_receiver_take(&r, frame, len, &now, &kind, text, sizeof text, &size));
    CHECK(kind == KRBRELAY_TEXT && size == 2 && memcmp(text, "hi", 2) == 0);
    krbrelay_sealer_free(&s);
    krbrelay_receiver_free(&r);
}

/* Two confounders of the system differ, so two messages of one number do. */
static void confounders_differ(void)
{
    uint8_t frames[2][sizeof frame];
    size_t size[2] = { 0, 0 };
    set_system();
    for (int i = 0; i < 2; i++) {
        struct krbrelay_sealer s = sealer_at_7(17, KRBRELAY_PRIV);
        is_real = 1;
        CHECK(seal_now(&s, sizeof frame, &size[i]) == KRBRELAY_OK);
        memcpy(frames[i], frame, size[i]);
        krbrelay_sealer_free(&s);
    }
    /* The first 16 bytes of the cipher are those of the confounder: no time is in them. */
    CHECK(memcmp(frames[0] + 27, frames[1] + 27, 16) != 0);
}

/* ---- addresses */

static int is_address(const struct krbrelay_address *a, int32_t kind, const uint8_t *bytes, uint32_t len)
{
    static const uint8_t zeros[40];
    return a->kind == kind && a->len == len && memcmp(a->bytes, bytes, len) == 0 &&
           memcmp(a->bytes + len, zeros, 40 - len) == 0;
}

static struct sockaddr_in6 ipv6_of(const char *told)
{
    struct sockaddr_in6 from = { .sin6_family = AF_INET6, .sin6_port = htons(88) };
    CHECK(inet_pton(AF_INET6, told, &from.sin6_addr) == 1);
    return from;
}

static enum krbrelay_answer from_ipv6(struct krbrelay_address *to, const char *told)
{
    struct sockaddr_in6 from = ipv6_of(told);
    memset(to, 0xee, sizeof *to);
    return krbrelay_address_from(to, (const struct sockaddr *)&from, sizeof from);
}

/* RFC 4120 section 7.5.3: IPv4 is of type 2, IPv6 of type 24, and an address of IPv4 that is mapped
 * into IPv6 is one of type 2. */
static void addresses(void)
{
    static const uint8_t host[4] = { 192, 0, 2, 7 };
    static const uint8_t long_host[16] = { 0x20, 0x01, 0x0d, 0xb8, 0, 0, 0, 0, 0, 0, 0, 0, 0, 0, 0, 9 };
    struct sockaddr_in from = { .sin_family = AF_INET, .sin_port = htons(88) };
    struct krbrelay_address a;
    memset(&a, 0xee, sizeof a);
    CHECK(inet_pton(AF_INET, "192.0.2.7", &from.sin_addr) == 1);
    CHECK(krbrelay_address_from(&a, (const struct sockaddr *)&from, sizeof from) == KRBRELAY_OK);
    CHECK(is_address(&a, KRBRELAY_IPV4, host, 4) && a.kind == 2);
    CHECK(from_ipv6(&a, "2001:db8::9") == KRBRELAY_OK);
    CHECK(is_address(&a, KRBRELAY_IPV6, long_host, 16) && a.kind == 24);
    CHECK(from_ipv6(&a, "::ffff:192.0.2.7") == KRBRELAY_OK && is_address(&a, 2, host, 4));
}

static void no_addresses(void)
{
    struct sockaddr_un local = { .sun_family = AF_UNIX };
    struct sockaddr_in from = { .sin_family = AF_INET };
    struct sockaddr_in6 longer = ipv6_of("::1");
    struct krbrelay_address a, before;
    memset(&a, 0xee, sizeof a);
    memset(&before, 0xee, sizeof before);
    CHECK(krbrelay_address_from(&a, (struct sockaddr *)&local, sizeof local) == KRBRELAY_ARGUMENT);
    CHECK(krbrelay_address_from(&a, (struct sockaddr *)&from, sizeof from - 1) == KRBRELAY_ARGUMENT);
    CHECK(krbrelay_address_from(&a, (struct sockaddr *)&longer, sizeof longer - 1)
          == KRBRELAY_ARGUMENT);
    for (size_t len = 0; len < 2; len++)
        CHECK(krbrelay_address_from(&a, (struct sockaddr *)&from, len) == KRBRELAY_ARGUMENT);
    CHECK(memcmp(&a, &before, sizeof a) == 0);
}

/* ---- answers */

/* Each answer of the header, by its number. */
static enum krbrelay_class class_of(uint32_t answer)
{
    switch (answer) {
    case 0:
        return KRBRELAY_CLASS_OK;
    case 1: case 3: case 907:
        return KRBRELAY_CLASS_STATE;
    case 2: case 905: case 906: case 908: case 909: case 910: case 911: case 912: case 913:
        return KRBRELAY_CLASS_CALLER;
    case 904:
        return KRBRELAY_CLASS_MEMORY;
    case 914: case 915: case 916:
        return KRBRELAY_CLASS_SYSTEM;
    case 14: case 31: case 37: case 38: case 39: case 40: case 41: case 42: case 50: case 61:
    case 901: case 902: case 903: case 917: case 918:
        return KRBRELAY_CLASS_REFUSAL;
    default:
        return KRBRELAY_CLASS_UNKNOWN;
    }
}

/* What krbrelay_answer_text says of the number, whose texts answers.c has. */
static const char *text_of(uint32_t answer, char said[KRBRELAY_TEXT_SIZE])
{
    size_t size = 0;
    if (krbrelay_answer_text(answer, said, KRBRELAY_TEXT_SIZE, &size) == KRBRELAY_OK)
        return said;
    return "no answer of this library";
}

static void answers(void)
{
    char said[KRBRELAY_TEXT_SIZE];
    for (uint32_t answer = 0; answer < 2000; answer++) {
        CHECK(krbrelay_class_of(answer) == class_of(answer));
        CHECK(krbrelay_is_refusal(answer) == (class_of(answer) == KRBRELAY_CLASS_REFUSAL));
        CHECK(strcmp(krbrelay_strerror(answer), text_of(answer, said)) == 0);
    }
    CHECK(krbrelay_class_of(INT32_MAX) == KRBRELAY_CLASS_UNKNOWN);
    CHECK(krbrelay_class_of(UINT32_MAX) == KRBRELAY_CLASS_UNKNOWN && !krbrelay_is_refusal(UINT32_MAX));
}

/* ---- handles and the processor */

static void empty_handles(void)
{
    struct krbrelay_expect expect = expect_of(KRBRELAY_SAFE);
    struct krbrelay_sealer s = KRBRELAY_INIT;
    struct krbrelay_opener o = KRBRELAY_INIT;
    struct krbrelay_receiver r = KRBRELAY_INIT;
    CHECK(krbrelay_sealer_is_empty(&s) && krbrelay_opener_is_empty(&o));
    CHECK(krbrelay_receiver_is_empty(&r));
    s = sealer_at_7(17, KRBRELAY_SAFE);
    CHECK(krbrelay_opener_new(&o, 17, keys[0], 16, &expect) == KRBRELAY_OK);
    CHECK(krbrelay_receiver_new(&r, 17, keys[0], 16, &expect, 7, 0) == KRBRELAY_OK);
    CHECK(!krbrelay_sealer_is_empty(&s) && !krbrelay_opener_is_empty(&o));
    CHECK(!krbrelay_receiver_is_empty(&r));
    krbrelay_sealer_wipe(&s);
    CHECK(!krbrelay_sealer_is_empty(&s));
    CHECK(krbrelay_opener_new(&o, 16, keys[0], 16, &expect) == KRBRELAY_ETYPE);
    krbrelay_sealer_free(&s);
    krbrelay_receiver_free(&r);
    CHECK(krbrelay_sealer_is_empty(&s) && krbrelay_opener_is_empty(&o));
    CHECK(krbrelay_receiver_is_empty(&r));
}

int main(int count, char **words)
{
    check_only(1, count, words);
    CHECK(krbrelay_is_supported() == 1);
    RUN(clocks());
    RUN(frames_of_another_sealer());
    RUN(frames_of_a_peer());
    RUN(draws_that_go_on());
    RUN(faults_of_the_system());
    RUN(answers_of_sealing());
    RUN(several_now());
    RUN(records());
    RUN(confounders_differ());
    RUN(addresses());
    RUN(no_addresses());
    RUN(answers());
    RUN(empty_handles());
    return check_status("calls");
}
