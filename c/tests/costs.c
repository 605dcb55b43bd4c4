/* What calls cost: under callgrind, linked with the shared library, so that its instructions stand alone.
 * Its words are sizes, and after them the calls that are measured, by default all. A size after a number and an `x`
 * is measured of the calls of several messages alone, with so many; without one they have eight. A line for each case
 * on standard output: call, what happens, mode, encryption type, size, messages, answer, and of the allocations how
 * many, the bytes asked for, the largest, and the frames' bytes. Callgrind dumps the instructions of each under the
 * same line (c/costs reads both). */
#include "check.h"
#include "krbrelay.h"
#include "session.h"

#include <stdio.h>
#include <stdlib.h>
#include <string.h>
#include <valgrind/callgrind.h>

enum { NUMBER = 7, MOST = 262144, BESIDE = 500, FRAME = MOST + BESIDE, LINE = 200, CODE = 12, MANY = 8,
       MOST_TOGETHER = KRBRELAY_MOST_FRAMES };

/* The least number with the longest encoding. */
#define LONGEST 0x80000000u

/* ---- the allocator, which counts; the library's calls come here too */

void *__libc_malloc(size_t size);
void *__libc_realloc(void *block, size_t size);

static struct { size_t times, bytes, largest; } asked;

static void note(size_t size)
{
    asked.times++;
    asked.bytes += size;
    asked.largest = size > asked.largest ? size : asked.largest;
}

void *malloc(size_t size)
{
    note(size);
    return __libc_malloc(size);
}

void *realloc(void *block, size_t size)
{
    note(size);
    return __libc_realloc(block, size);
}

/* ---- the calls, at number 7 */

static uint8_t key[32], data[MOST], frame[FRAME], out[MANY * FRAME];
static const uint8_t confounder[16] = { 1, 2, 3 };
static int messages = MANY;  /* of a call of several */
static struct krbrelay_unsealed many[MOST_TOGETHER];
static struct krbrelay_frame together[2 * MOST_TOGETHER]; /* of two calls */
static uint8_t frames[2 * MANY * FRAME];
static int taken_before; /* so many of them were taken before */
static size_t data_len, frame_len, told, sizes[KRBRELAY_MOST_MESSAGES];
static uint32_t kind, mode;
static int32_t etype;
static uint64_t demanded = NUMBER;
static uint32_t first = NUMBER; /* the first number that is sealed */
static struct krbrelay_moment now;
static struct krbrelay_sealer sealer;
static struct krbrelay_opener opener;
static struct krbrelay_receiver receiver;
static struct krbrelay_peer peer;

static enum krbrelay_answer new_sealer(void)
{
    struct krbrelay_session session = session_of(mode, first);
    tell_receiver(&session);
    return krbrelay_sealer_new(&sealer, etype, key, key_size(etype), &session);
}

static enum krbrelay_answer new_opener(void)
{
    struct krbrelay_expect expect = expect_of(mode);
    return krbrelay_opener_new(&opener, etype, key, key_size(etype), &expect);
}

static enum krbrelay_answer new_receiver(void)
{
    struct krbrelay_expect expect = expect_of(mode);
    return krbrelay_receiver_new(&receiver, etype, key, key_size(etype), &expect, demanded, 0);
}

static enum krbrelay_answer new_peer(void)
{
    struct krbrelay_session session = session_of(mode, first);
    struct krbrelay_demand demand = demand_of(1, 255, demanded);
    tell_receiver(&session);
    return krbrelay_peer_new(&peer, etype, key, key_size(etype), &session, &demand);
}

static enum krbrelay_answer seal(void)
{
    return krbrelay_sealer_seal(&sealer, data, data_len, &now, confounder, out, FRAME, &told);
}

static enum krbrelay_answer seal_record(void)
{
    return krbrelay_sealer_seal_record(&sealer, KRBRELAY_TEXT, data, data_len, &now, confounder, out, FRAME, &told);
}

static enum krbrelay_answer seal_many(void)
{
    return krbrelay_sealer_seal_many(&sealer, many, (size_t)messages, out, sizeof out, sizes, &told);
}

static enum krbrelay_answer frame_size(void)
{
    return krbrelay_sealer_frame_size(&sealer, data_len, &now, &told);
}

static enum krbrelay_answer unseal(void)
{
    return krbrelay_opener_unseal(&opener, frame, frame_len, demanded, &now, out, FRAME, &told);
}

static enum krbrelay_answer open_it(void)
{
    struct krbrelay_demand demand = demand_of(1, 255, demanded);
    struct krbrelay_carried carried;
    return krbrelay_opener_open(&opener, frame, frame_len, &demand, &now, out, FRAME, &told, &carried);
}

static enum krbrelay_answer take(void)
{
    return krbrelay_receiver_take(&receiver, frame, frame_len, &now, &kind, out, FRAME, &told);
}

static enum krbrelay_answer take_many(void)
{
    struct krbrelay_taken taken[KRBRELAY_MOST_FRAMES];
    enum krbrelay_answer answer = krbrelay_receiver_take_many(&receiver, together + taken_before,
                                                              (size_t)messages, &now, out, sizeof out, taken);
    taken_before = messages;
    for (int i = 0; i < messages && answer == KRBRELAY_OK; i++)
        answer = (enum krbrelay_answer)taken[i].answer;
    return answer;
}

static enum krbrelay_answer peer_seal(void)
{
    return krbrelay_peer_seal(&peer, data, data_len, &now, confounder, out, FRAME, &told);
}

static enum krbrelay_answer peer_seal_many(void)
{
    return krbrelay_peer_seal_many(&peer, many, (size_t)messages, out, sizeof out, sizes, &told);
}

static enum krbrelay_answer peer_open(void)
{
    struct krbrelay_carried carried;
    return krbrelay_peer_open(&peer, frame, frame_len, &now, out, FRAME, &told, &carried);
}

static enum krbrelay_answer header(void)
{
    struct krbrelay_header it;
    return krbrelay_message_header(frame, frame_len, &it);
}

static const struct call { const char *name; enum krbrelay_answer (*made)(void); int makes, opens; } calls[] = {
    { "sealer_new", new_sealer, 1, 0 }, { "opener_new", new_opener, 1, 0 },
    { "receiver_new", new_receiver, 1, 0 }, { "peer_new", new_peer, 1, 0 },
    { "sealer_seal", seal, 0, 0 }, { "sealer_seal_record", seal_record, 0, 0 },
    { "sealer_seal_many", seal_many, 0, 0 }, { "sealer_frame_size", frame_size, 0, 0 }, { "peer_seal", peer_seal, 0, 0 },
    { "peer_seal_many", peer_seal_many, 0, 0 },
    { "opener_unseal", unseal, 0, 1 }, { "opener_open", open_it, 0, 1 }, { "receiver_take", take, 0, 1 },
    { "receiver_take_many", take_many, 0, 0 },
    { "peer_open", peer_open, 0, 1 }, { "message_header", header, 0, 1 },
};

/* ---- cases */

static void make_all(void)
{
    taken_before = 0;
    check(new_sealer() == KRBRELAY_OK && new_opener() == KRBRELAY_OK && new_receiver() == KRBRELAY_OK
          && new_peer() == KRBRELAY_OK, "no handles");
}

static void end_all(void)
{
    krbrelay_sealer_free(&sealer);
    krbrelay_opener_free(&opener);
    krbrelay_receiver_free(&receiver);
    krbrelay_peer_free(&peer);
}

/* A frame, and as many as are taken together, of which it is the first. */
static void seal_frames(void)
{
    size_t room = data_len + BESIDE;
    make_all();
    for (int i = 0; i < 2 * messages; i++) {
        uint8_t *place = frames + (size_t)i * room;
        together[i].bytes = place;
        check(krbrelay_sealer_seal_record(&sealer, KRBRELAY_TEXT, data, data_len, &now, confounder, place, room,
                                          &together[i].bytes_len) == KRBRELAY_OK, "no frame");
    }
    frame_len = together[0].bytes_len;
    memcpy(frame, frames, frame_len);
    end_all();
}

static int is_of_many(const struct call *call)
{
    return call->made == seal_many || call->made == peer_seal_many || call->made == take_many;
}

/* The call, after as many others like it. */
static void measure_after(const struct call *call, int others, const char *what)
{
    char line[LINE];
    enum krbrelay_answer answer;
    if (!call->makes)
        make_all();
    for (; others > 0; others--)
        check(call->made() == KRBRELAY_OK, "the call before");
    memset(&asked, 0, sizeof asked);
    CALLGRIND_ZERO_STATS;
    CALLGRIND_TOGGLE_COLLECT;
    answer = call->made();
    CALLGRIND_TOGGLE_COLLECT;
    int of_call = is_of_many(call) ? messages : 1;
    snprintf(line, sizeof line, "%s|%s|%u|%d|%zu|%d|%u|%zu|%zu|%zu|%zu", call->name, what, mode, (int)etype, data_len,
             of_call, (unsigned)answer, asked.times, asked.bytes, asked.largest, (size_t)of_call * frame_len);
    CALLGRIND_DUMP_STATS_AT(line);
    puts(line);
    end_all();
}

static void measure(const struct call *call, const char *what)
{
    measure_after(call, 0, what);
}

/* The call where each message's number has the longest encoding. */
static void measure_longest(const struct call *call)
{
    first = LONGEST;
    seal_frames();
    measure(call, "the longest numbers");
    first = NUMBER;
    seal_frames();
}

/* The frame ends by its checksum or code. */
static void measure_changed(const struct call *call, size_t at, const char *what)
{
    frame[at] ^= 1;
    measure(call, what);
    frame[at] ^= 1;
}

/* Whether the words name this call, or none. */
static int is_asked(const char *call, int count, char **names)
{
    for (int i = 0; i < count; i++)
        if (strcmp(names[i], call) == 0)
            return 1;
    return count == 0;
}

static void make_messages(void)
{
    seal_frames();
    for (int i = 0; i < messages; i++) {
        many[i] = (struct krbrelay_unsealed){ .user_data = data, .user_data_len = data_len, .at = now };
        memcpy(many[i].confounder, confounder, sizeof confounder);
    }
}

static void measure_many(int count, char **names)
{
    make_messages();
    for (size_t i = 0; i < sizeof calls / sizeof *calls; i++)
        if (is_of_many(&calls[i]) && is_asked(calls[i].name, count, names))
            measure(&calls[i], "done");
}

static void measure_all(int count, char **names)
{
    make_messages();
    for (size_t i = 0; i < sizeof calls / sizeof *calls; i++) {
        if ((calls[i].makes && data_len > 0) || !is_asked(calls[i].name, count, names))
            continue;
        measure(&calls[i], "done");
        if (is_of_many(&calls[i]))
            measure_after(&calls[i], 1, "done again");
        if (is_of_many(&calls[i]) && calls[i].made != take_many)
            measure_longest(&calls[i]);
        if (!calls[i].opens || calls[i].made == header)
            continue;
        measure_changed(&calls[i], frame_len - CODE, "first of the code changed");
        measure_changed(&calls[i], frame_len - 1, "last of the code changed");
        demanded++;
        measure(&calls[i], "another number");
        demanded--;
    }
}

/* A word "12x100" or "100". */
static void measure_word(const char *word, int count, char **names)
{
    const char *size = strchr(word, 'x');
    messages = size == NULL ? MANY : atoi(word);
    data_len = strtoul(size == NULL ? word : size + 1, NULL, 10);
    check(data_len <= MOST && messages >= 1 && messages <= MOST_TOGETHER
          && (size_t)messages * (data_len + BESIDE) <= sizeof out, "the size");
    if (size == NULL)
        measure_all(count, names);
    else
        measure_many(count, names);
}

int main(int count, char **words)
{
    int names = 1;
    now = moment(SECS, USEC);
    while (names < count && words[names][0] >= '0' && words[names][0] <= '9')
        names++;
    for (int i = 0; i < 32; i++)
        key[i] = (uint8_t)(i * 7 + 1);
    for (size_t i = 0; i < MOST; i++)
        data[i] = (uint8_t)(i * 31 + i / 256);
    for (mode = KRBRELAY_SAFE; mode <= KRBRELAY_PRIV; mode++)
        for (etype = 17; etype <= 18; etype++)
            for (int i = 1; i < names; i++)
                measure_word(words[i], count - names, words + names);
    return 0;
}
