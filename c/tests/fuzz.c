/* A fuzzer of the calls that read messages. Each message is given to openers, receivers and peers of
 * both modes and encryption types, by all calls that open: these must agree with one another, and write
 * nothing where they refuse. Messages are those of frames.h with bytes changed, cut, added and copied, or
 * those that are given. sequences.py tries the other calls.
 *
 *   fuzz [COUNT [SEED]]        tries so many messages
 *   fuzz lines COUNT SEED      prints each with what krbrelay_opener_unseal answers, which
 *                              fuzz_answers.py compares with opener.py of tests/oracle
 *   fuzz given                 the same of the messages on standard input, a line of hexadecimal
 *                              digits each, as fuzz_behind.py prints them
 *
 * With -DLIBFUZZER it is a target of libFuzzer and AFL++ in place of a program. */
#include "check.h"
#include "frames.h"
#include "krbrelay.h"
#include "session.h"

#include <stdio.h>
#include <stdlib.h>
#include <string.h>

enum { LONGEST = 4096, NUMBER = 7 };

static const struct krbrelay_moment now = { SECS + 1, USEC, 0 };
static struct krbrelay_opener openers[2][2];
static struct krbrelay_receiver receivers[2][2];
static struct krbrelay_peer peers[2][2];
static int print_lines;

/* What openers and peers demand where they demand all. */
static struct krbrelay_demand all;

/* A receiver and a peer that demand the number: new ones take the place of those that took a message. */
static void make_receiver(uint32_t mode, int wide)
{
    struct krbrelay_expect expect = expect_of(mode);
    HOLDS(krbrelay_receiver_new(&receivers[mode - KRBRELAY_SAFE][wide], 17 + wide, keys[wide],
                                wide ? 32 : 16, &expect, NUMBER, 0) == KRBRELAY_OK);
}

static void make_peer(uint32_t mode, int wide)
{
    struct krbrelay_session session = session_of(mode, 0);
    HOLDS(krbrelay_peer_new(&peers[mode - KRBRELAY_SAFE][wide], 17 + wide, keys[wide], wide ? 32 : 16,
                            &session, &all) == KRBRELAY_OK);
}

static void begin(void)
{
    if (openers[0][0].count != 0)
        return;
    all = demand_of(1, 255, NUMBER);
    for (uint32_t mode = KRBRELAY_SAFE; mode <= KRBRELAY_PRIV; mode++)
        for (int wide = 0; wide < 2; wide++) {
            struct krbrelay_expect expect = expect_of(mode);
            HOLDS(krbrelay_opener_new(&openers[mode - KRBRELAY_SAFE][wide], 17 + wide, keys[wide],
                                      wide ? 32 : 16, &expect) == KRBRELAY_OK);
            make_receiver(mode, wide);
            make_peer(mode, wide);
        }
}

/* What a call answered, the user data that it gave, and what it told of an authentic message. */
struct outcome {
    enum krbrelay_answer answer;
    size_t size;
    uint8_t data[LONGEST];
    struct krbrelay_carried carried;
};

static void is_whole(const struct outcome *o)
{
    if (o->answer == KRBRELAY_OK)
        HOLDS(o->size < LONGEST);
    else
        HOLDS(o->size == 12345 && o->data[0] == 0xee);
    HOLDS(o->answer != KRBRELAY_EMPTY && o->answer != KRBRELAY_WIPED && o->answer != KRBRELAY_ROOM);
}

static void clear(struct outcome *o)
{
    o->size = 12345;
    memset(o->data, 0xee, sizeof o->data);
}

static void unseal(struct krbrelay_opener *o, const uint8_t *frame, size_t len, struct outcome *to)
{
    clear(to);
    to->answer = krbrelay_opener_unseal(o, frame, len, NUMBER, &now, to->data, LONGEST, &to->size);
    is_whole(to);
}

static void unseal_in_place(struct krbrelay_opener *o, const uint8_t *frame, size_t len,
                            const struct outcome *same)
{
    uint8_t *copy = malloc(len + 1);
    size_t size = 12345;
    enum krbrelay_answer answer;
    HOLDS(copy != NULL);
    memcpy(copy, frame, len);
    answer = krbrelay_opener_unseal_in_place(o, copy, len, NUMBER, &now, &size);
    HOLDS(answer == same->answer && size == same->size);
    if (answer == KRBRELAY_OK)
        HOLDS(memcmp(copy, same->data, size) == 0 && memcmp(copy + size, frame + size, len - size) == 0);
    else
        HOLDS(memcmp(copy, frame, len) == 0);
    free(copy);
}

static void open_with(struct krbrelay_opener *o, const uint8_t *frame, size_t len, int strict,
                      struct outcome *to)
{
    static const struct krbrelay_demand none;
    struct krbrelay_carried *carried = &to->carried;
    memset(carried, 0xee, sizeof *carried);
    clear(to);
    to->answer = krbrelay_opener_open(o, frame, len, strict ? &all : &none, &now, to->data, LONGEST,
                                      &to->size, carried);
    is_whole(to);
    if (to->answer == KRBRELAY_OK)
        HOLDS(carried->sender.len <= 40 && carried->receiver.len <= 40 && carried->reserved[5] == 0);
    else
        HOLDS(carried->number == 0xeeeeeeee);
}

static int same(const struct outcome *a, const struct outcome *b)
{
    return a->answer == b->answer && a->size == b->size && memcmp(a->data, b->data, LONGEST) == 0;
}

/* Unsealing is opening with the same demands, but that KRB-SAFE has its checksum compared last. */
static void agree(uint32_t mode, const struct outcome *unsealed, const struct outcome *authentic,
                  const struct outcome *demanded)
{
    if (mode == KRBRELAY_PRIV || unsealed->answer == KRBRELAY_OK || demanded->answer == KRBRELAY_OK)
        HOLDS(same(unsealed, demanded));
    if (authentic->answer != KRBRELAY_OK)
        HOLDS(same(authentic, demanded) || authentic->answer == KRBRELAY_BADADDR);
    if (demanded->answer == KRBRELAY_OK)
        HOLDS(same(authentic, demanded));
}

/* The kind of the record that user data are, or 0. */
static uint32_t record_kind(const uint8_t *data, size_t size)
{
    size_t at = 0, len = 0, texts = 0;
    const uint8_t *text;
    if (size > 0 && data[0] == 'D')
        return KRBRELAY_TEXT;
    if (size == 1 && data[0] == 'C')
        return KRBRELAY_CLOSE;
    if (size == 0 || data[0] != 'B')
        return 0;
    while (krbrelay_batch_next(data + 1, size - 1, &at, &text, &len) == KRBRELAY_OK)
        texts++;
    return at == size - 1 && texts >= 2 && texts <= 1000 ? KRBRELAY_BATCH : 0;
}

/* A receiver takes what unseals if it is a record, and moves on then alone. */
static void take(uint32_t mode, int wide, const uint8_t *frame, size_t len, const struct outcome *same)
{
    static uint8_t bytes[LONGEST];
    struct krbrelay_expect expect = expect_of(mode);
    struct krbrelay_receiver r = KRBRELAY_INIT;
    uint32_t kind = same->answer == KRBRELAY_OK ? record_kind(same->data, same->size) : 0;
    uint32_t told = 99, closed = 99;
    uint64_t number = 0;
    size_t size = 12345;
    enum krbrelay_answer answer;
    HOLDS(krbrelay_receiver_new(&r, 17 + wide, keys[wide], wide ? 32 : 16, &expect, NUMBER, 0)
          == KRBRELAY_OK);
    answer = krbrelay_receiver_take(&r, frame, len, &now, &told, bytes, LONGEST, &size);
    HOLDS(answer == (same->answer != KRBRELAY_OK || kind != 0 ? same->answer : KRBRELAY_BAD_RECORD));
    HOLDS(krbrelay_receiver_state(&r, &number, &closed) == KRBRELAY_OK);
    HOLDS(number == NUMBER + (answer == KRBRELAY_OK)
          && closed == (answer == KRBRELAY_OK && kind == KRBRELAY_CLOSE));
    if (answer == KRBRELAY_OK)
        HOLDS(told == kind && size == same->size - 1 && memcmp(bytes, same->data + 1, size) == 0);
    else
        HOLDS(told == 99 && size == 12345);
    krbrelay_receiver_free(&r);
}

/* A receiver tells the number that came: it answers as another that doesn't. The refused message tells
 * its number if and only if it is authentic, and has one. */
static void take_numbered(uint32_t mode, int wide, const uint8_t *frame, size_t len,
                          const struct outcome *unsealed, const struct outcome *authentic)
{
    static uint8_t bytes[LONGEST];
    int is_told = authentic->answer == KRBRELAY_OK && authentic->carried.has_number;
    uint64_t number = 12345, expected = 12345;
    uint32_t kind = 99;
    size_t size = 12345;
    enum krbrelay_answer answer = krbrelay_receiver_take_numbered(
        &receivers[mode - KRBRELAY_SAFE][wide], frame, len, &now, &kind, bytes, LONGEST, &size, &number);
    HOLDS(answer == unsealed->answer
          || (unsealed->answer == KRBRELAY_OK && answer == KRBRELAY_BAD_RECORD));
    if (answer == KRBRELAY_OK)
        expected = NUMBER;
    else if (answer == KRBRELAY_BADORDER)
        expected = is_told ? authentic->carried.number : UINT64_MAX;
    HOLDS(number == expected);
    if (answer == KRBRELAY_OK)
        make_receiver(mode, wide);
}

/* A peer opens what an opener opens with the same demand, moves on then alone, and tells what the
 * message carried also where its number is refused. */
static void open_by_peer(uint32_t mode, int wide, const uint8_t *frame, size_t len,
                         const struct outcome *authentic, const struct outcome *demanded)
{
    static struct outcome found;
    struct krbrelay_peer *p = &peers[mode - KRBRELAY_SAFE][wide];
    uint64_t next = 99, expected = 99;
    clear(&found);
    memset(&found.carried, 0xee, sizeof found.carried);
    found.answer = krbrelay_peer_open(p, frame, len, &now, found.data, LONGEST, &found.size,
                                      &found.carried);
    HOLDS(found.answer == demanded->answer && found.size == demanded->size
          && memcmp(found.data, demanded->data, LONGEST) == 0);
    HOLDS(memcmp(&found.carried, found.answer == KRBRELAY_BADORDER ? &authentic->carried
                                                                   : &demanded->carried,
                 sizeof found.carried) == 0);
    HOLDS(krbrelay_peer_state(p, &next, &expected) == KRBRELAY_OK && next == 0);
    HOLDS(expected == NUMBER + (found.answer == KRBRELAY_OK));
    if (found.answer == KRBRELAY_OK)
        make_peer(mode, wide);
}

static void print_line(uint32_t mode, int etype, const uint8_t *frame, size_t len,
                       const struct outcome *o)
{
    printf("%s %d %u ", mode == KRBRELAY_SAFE ? "safe" : "priv", etype, (unsigned)o->answer);
    for (size_t i = 0; o->answer == KRBRELAY_OK && i < o->size; i++)
        printf("%02x", o->data[i]);
    printf("- ");
    for (size_t i = 0; i < len; i++)
        printf("%02x", frame[i]);
    printf("\n");
}

static void try_message(const uint8_t *frame, size_t len)
{
    static struct outcome unsealed, authentic, demanded;
    struct krbrelay_header header;
    enum krbrelay_answer read;
    check_calls++;
    begin();
    if (len >= LONGEST)
        return;
    read = krbrelay_message_header(frame, len, &header);
    HOLDS(read == KRBRELAY_OK || read == KRBRELAY_MALFORMED);
    for (uint32_t mode = KRBRELAY_SAFE; mode <= KRBRELAY_PRIV; mode++)
        for (int wide = 0; wide < 2; wide++) {
            struct krbrelay_opener *o = &openers[mode - KRBRELAY_SAFE][wide];
            unseal(o, frame, len, &unsealed);
            unseal_in_place(o, frame, len, &unsealed);
            open_with(o, frame, len, 0, &authentic);
            open_with(o, frame, len, 1, &demanded);
            agree(mode, &unsealed, &authentic, &demanded);
            take(mode, wide, frame, len, &unsealed);
            take_numbered(mode, wide, frame, len, &unsealed, &authentic);
            open_by_peer(mode, wide, frame, len, &authentic, &demanded);
            HOLDS((read == KRBRELAY_MALFORMED) == (unsealed.answer == KRBRELAY_MALFORMED)
                  || unsealed.answer == KRBRELAY_MALFORMED);
            if (print_lines)
                print_line(mode, 17 + wide, frame, len, &unsealed);
        }
}

#ifdef LIBFUZZER
int LLVMFuzzerTestOneInput(const uint8_t *bytes, size_t len);

int LLVMFuzzerTestOneInput(const uint8_t *bytes, size_t len)
{
    try_message(bytes, len);
    return 0;
}
#else
static uint64_t state;

/* A generator of 64 bits (Marsaglia, Xorshift RNGs, 2003). */
static size_t draw(size_t below)
{
    state ^= state << 13;
    state ^= state >> 7;
    state ^= state << 17;
    return (size_t)(state >> 11) % below;
}

static const struct { const uint8_t *bytes; size_t len; } known[] = {
    { safe_17, sizeof safe_17 }, { safe_18, sizeof safe_18 }, { priv_17, sizeof priv_17 },
    { priv_18, sizeof priv_18 }, { safe_17_no_number, sizeof safe_17_no_number },
    { safe_17_timeless, sizeof safe_17_timeless }, { safe_17_no_usec, sizeof safe_17_no_usec },
    { safe_17_to_receiver, sizeof safe_17_to_receiver }, { safe_17_neither, sizeof safe_17_neither },
    { safe_17_seconds, sizeof safe_17_seconds }
};

static size_t change(uint8_t *frame, size_t len)
{
    size_t at = len == 0 ? 0 : draw(len), count = draw(8);
    switch (len == 0 ? 4 : draw(6)) {
    case 0: frame[at] ^= (uint8_t)(1u << draw(8)); return len;
    case 1: frame[at] = (uint8_t)draw(256); return len;
    case 2: return at;
    case 3: memmove(frame, frame + at, len - at); return len - at;
    case 4:
        for (size_t i = 0; i < count; i++)
            frame[len + i] = (uint8_t)draw(256);
        return len + count;
    default: frame[at] = frame[draw(len)]; return len;
    }
}

/* The message of a line of digits. */
static size_t read_message(const char *line, uint8_t *message)
{
    size_t len = 0;
    unsigned byte;
    while (len < LONGEST && sscanf(line + 2 * len, "%2x", &byte) == 1)
        message[len++] = (uint8_t)byte;
    return len;
}

static void try_given(void)
{
    static char line[2 * LONGEST + 2];
    static uint8_t message[LONGEST];
    print_lines = 1;
    while (fgets(line, sizeof line, stdin) != NULL)
        try_message(message, read_message(line, message));
}

static void free_all(void)
{
    for (int i = 0; i < 4; i++) {
        krbrelay_opener_free(&openers[i / 2][i % 2]);
        krbrelay_receiver_free(&receivers[i / 2][i % 2]);
        krbrelay_peer_free(&peers[i / 2][i % 2]);
    }
}

int main(int argc, char **argv)
{
    int first = argc > 1 && strcmp(argv[1], "lines") == 0;
    if (argc > 1 && strcmp(argv[1], "given") == 0) {
        try_given();
        free_all();
        return 0;
    }
    long count = argc > 1 + first ? atol(argv[1 + first]) : 20000;
    print_lines = first;
    state = argc > 2 + first ? strtoull(argv[2 + first], NULL, 10) * 2 + 1 : 88172645463325252u;
    for (long i = 0; i < count; i++) {
        static uint8_t frame[LONGEST];
        size_t which = draw(sizeof known / sizeof known[0]), len = known[which].len;
        memcpy(frame, known[which].bytes, len);
        for (size_t changes = draw(4); changes > 0; changes--)
            len = change(frame, len);
        try_message(frame, len);
    }
    free_all();
    if (!print_lines)
        printf("fuzz: %ld messages, to four openers, receivers and peers each\n", count);
    return 0;
}
#endif
