/* Calls of libkrbrelay with secrets that memcheck takes for undefined: its key, confounders and user
 * data. Frames are public once they are made, and so is the answer of each call.
 *
 *     library PART ETYPE MODE      PART is control, seal, refuse or open
 *
 * It prints the address at which the shared object of libkrbrelay was loaded, or 0 where it is linked to
 * the archive, and ends with 0 if each call answered as it has to. */
#define _GNU_SOURCE
#include "krbrelay.h"

#include <inttypes.h>
#include <link.h>
#include <stdio.h>
#include <stdlib.h>
#include <string.h>
#include <valgrind/memcheck.h>

#define NUMBER 7u
#define LONGEST 5000u

static const struct krbrelay_moment now = { .seconds = 1700000000u, .microseconds = 5 };
static const size_t sizes[] = { 0, 1, 15, 16, 17, 31, 32, 33, 64, 100, 1000, 4097, LONGEST };
/* Of the texts that are opened: what a call does with many bytes may be other code. */
static const size_t opened_sizes[] = { 16, 160, 1000, LONGEST };

static uint8_t key[32], confounder[16], text[LONGEST];
static uint8_t frame[KRBRELAY_FRAME_SIZE(LONGEST + 1)], opened[sizeof frame];
static int32_t etype;
static uint32_t mode;

static void end(const char *what)
{
    fprintf(stderr, "library: %s\n", what);
    exit(1);
}

static void hide(void *bytes, size_t size) { VALGRIND_MAKE_MEM_UNDEFINED(bytes, size); }

static void publish(void *bytes, size_t size) { VALGRIND_MAKE_MEM_DEFINED(bytes, size); }

/* Ends where a call answered otherwise. */
static void has_answered(enum krbrelay_answer answer, enum krbrelay_answer wanted, const char *what)
{
    publish(&answer, sizeof answer);
    if (answer != wanted)
        end(what);
}

static size_t key_size(void) { return etype == 17 ? 16 : sizeof key; }

static void draw_secrets(void)
{
    for (size_t i = 0; i < sizeof key; i++)
        key[i] = (uint8_t)(7 * i + 3);
    for (size_t i = 0; i < sizeof confounder; i++)
        confounder[i] = (uint8_t)(5 * i + 9);
    for (size_t i = 0; i < sizeof text; i++)
        text[i] = (uint8_t)(31 * i + 1);
    hide(key, sizeof key);
    hide(confounder, sizeof confounder);
    hide(text, sizeof text);
}

static struct krbrelay_address host(uint8_t last)
{
    struct krbrelay_address address = { .kind = 2, .len = 4, .bytes = { 10, 0, 0, last } };
    return address;
}

static struct krbrelay_expect expected(void)
{
    struct krbrelay_expect demands = { .mode = mode, .sender = host(1), .receiver = host(2),
                                       .require_time = 1, .skew = 300 };
    return demands;
}

/* ---- the parts */

/* Three places: one for each secret. */
static void control(void)
{
    unsigned count = 0;
    if (key[0] == 3)
        count++;
    if (confounder[0] == 9)
        count++;
    if (text[0] == 1)
        count++;
    publish(&count, sizeof count);
    if (count != 3)
        end("the control counted otherwise");
}

static void make_sealer(struct krbrelay_sealer *sealer)
{
    struct krbrelay_session session = { .mode = mode, .first = NUMBER, .sender = host(1) };
    has_answered(krbrelay_sealer_new(sealer, etype, key, key_size(), &session), KRBRELAY_OK, "sealer_new");
}

static size_t sealed(struct krbrelay_sealer *sealer, size_t len)
{
    size_t size;
    has_answered(krbrelay_sealer_seal(sealer, text, len, &now, confounder, frame, sizeof frame, &size),
                 KRBRELAY_OK, "sealer_seal");
    publish(frame, size);
    return size;
}

static size_t sealed_record(struct krbrelay_sealer *sealer, uint32_t kind, const uint8_t *data, size_t len)
{
    size_t size;
    has_answered(krbrelay_sealer_seal_record(sealer, kind, data, len, &now, confounder, frame,
                                             sizeof frame, &size),
                 KRBRELAY_OK, "sealer_seal_record");
    publish(frame, size);
    return size;
}

static size_t two_texts(uint8_t *batch, size_t room)
{
    size_t size = 0;
    has_answered(krbrelay_batch_add(batch, room, &size, text, 50), KRBRELAY_OK, "batch_add");
    has_answered(krbrelay_batch_add(batch, room, &size, text + 50, 70), KRBRELAY_OK, "batch_add");
    return size;
}

/* One message of each size in one call: some side by side, and some that are left over. */
enum { COUNT = sizeof sizes / sizeof sizes[0], MORE = 500 };

static struct krbrelay_unsealed together[COUNT];
static uint8_t frames[COUNT * (LONGEST + MORE)];
static size_t made[KRBRELAY_MOST_MESSAGES], failed;

static void put_together(void)
{
    for (size_t i = 0; i < COUNT; i++) {
        together[i].user_data = text;
        together[i].user_data_len = sizes[i];
        together[i].at = now;
        memcpy(together[i].confounder, confounder, sizeof confounder);
    }
}

/* Publishes their frames where they were sealed. */
static void sealed_together(enum krbrelay_answer answer, const char *what)
{
    size_t whole = 0;
    has_answered(answer, KRBRELAY_OK, what);
    for (size_t i = 0; i < COUNT; i++)
        whole += made[i];
    publish(frames, whole);
}

static void seal_together(struct krbrelay_sealer *sealer)
{
    put_together();
    sealed_together(krbrelay_sealer_seal_many(sealer, together, COUNT, frames, sizeof frames, made, &failed),
                    "sealer_seal_many");
}

static void seal_together_by_peer(struct krbrelay_peer *peer)
{
    put_together();
    sealed_together(krbrelay_peer_seal_many(peer, together, COUNT, frames, sizeof frames, made, &failed),
                    "peer_seal_many");
}

static void make_peer(struct krbrelay_peer *peer)
{
    struct krbrelay_session session = { .mode = mode, .first = NUMBER, .sender = host(2) };
    struct krbrelay_demand demand = { .how_sender = KRBRELAY_REQUIRED, .sender = host(1),
                                      .how_number = KRBRELAY_REQUIRED, .number = NUMBER };
    has_answered(krbrelay_peer_new(peer, etype, key, key_size(), &session, &demand), KRBRELAY_OK,
                 "peer_new");
}

static void seal_by_peer(void)
{
    static const uint8_t state[KRBRELAY_PEER_STATE_SIZE] = { 0x6b, 0x72, 0x73, 1 };
    struct krbrelay_session session = { .mode = mode, .sender = host(2) };
    struct krbrelay_demand demand = { .how_number = KRBRELAY_REQUIRED };
    struct krbrelay_peer peer = { 0 };
    size_t size;
    has_answered(krbrelay_peer_resume(&peer, etype, key, key_size(), &session, &demand, state),
                 KRBRELAY_OK, "peer_resume");
    has_answered(krbrelay_peer_seal(&peer, text, 100, &now, confounder, frame, sizeof frame, &size),
                 KRBRELAY_OK, "peer_seal");
    seal_together_by_peer(&peer);
    krbrelay_peer_free(&peer);
}

static void seal(void)
{
    static const uint32_t other[] = { KRBRELAY_PRIV, KRBRELAY_SAFE };
    struct krbrelay_sealer sealer = { 0 };
    uint8_t batch[200];
    uint64_t next;
    size_t size;
    make_sealer(&sealer);
    for (size_t i = 0; i < sizeof sizes / sizeof sizes[0]; i++)
        (void)sealed(&sealer, sizes[i]);
    seal_together(&sealer);
    (void)sealed_record(&sealer, KRBRELAY_TEXT, text, 50);
    (void)sealed_record(&sealer, KRBRELAY_BATCH, batch, two_texts(batch, sizeof batch));
    has_answered(krbrelay_sealer_next(&sealer, &next), KRBRELAY_OK, "sealer_next");
    has_answered(krbrelay_sealer_frame_size(&sealer, 50, &now, &size), KRBRELAY_OK, "sealer_frame_size");
    has_answered(krbrelay_sealer_set_mode(&sealer, other[mode - KRBRELAY_SAFE]), KRBRELAY_OK, "set_mode");
    (void)sealed(&sealer, 100);
    seal_together(&sealer);
    (void)sealed_record(&sealer, KRBRELAY_CLOSE, NULL, 0);
    krbrelay_sealer_wipe(&sealer);
    krbrelay_sealer_free(&sealer);
    seal_by_peer();
}

/* The opener's calls, of a frame that each of them accepts or refuses. */
static void open_by_opener(size_t len, enum krbrelay_answer wanted)
{
    const struct krbrelay_expect demands = expected();
    struct krbrelay_demand demand = { .how_number = KRBRELAY_REQUIRED, .number = NUMBER };
    struct krbrelay_opener opener = { 0 };
    struct krbrelay_carried carried;
    size_t size;
    has_answered(krbrelay_opener_new(&opener, etype, key, key_size(), &demands), KRBRELAY_OK, "opener_new");
    has_answered(krbrelay_opener_unseal(&opener, frame, len, NUMBER, &now, opened, sizeof opened, &size),
                 wanted, "opener_unseal");
    has_answered(krbrelay_opener_open(&opener, frame, len, &demand, &now, opened, sizeof opened, &size,
                                      &carried),
                 wanted, "opener_open");
    has_answered(krbrelay_opener_unseal_in_place(&opener, frame, len, NUMBER, &now, &size), wanted,
                 "opener_unseal_in_place");
    krbrelay_opener_wipe(&opener);
    krbrelay_opener_free(&opener);
}

/* A frame that was accepted comes again, and its number is reported. */
static void open_by_peer(size_t len, enum krbrelay_answer wanted)
{
    struct krbrelay_peer peer = { 0 };
    struct krbrelay_carried carried;
    size_t size;
    make_peer(&peer);
    has_answered(krbrelay_peer_open(&peer, frame, len, &now, opened, sizeof opened, &size, &carried),
                 wanted, "peer_open");
    has_answered(krbrelay_peer_open(&peer, frame, len, &now, opened, sizeof opened, &size, &carried),
                 wanted == KRBRELAY_OK ? KRBRELAY_BADORDER : wanted, "peer_open again");
    krbrelay_peer_free(&peer);
}

static void take_by_receiver(size_t len, enum krbrelay_answer wanted)
{
    const struct krbrelay_expect demands = expected();
    struct krbrelay_receiver receiver = { 0 };
    uint64_t number;
    uint32_t kind;
    size_t size;
    has_answered(krbrelay_receiver_new(&receiver, etype, key, key_size(), &demands, NUMBER, 0),
                 KRBRELAY_OK, "receiver_new");
    has_answered(krbrelay_receiver_take(&receiver, frame, len, &now, &kind, opened, sizeof opened, &size),
                 wanted, "receiver_take");
    has_answered(krbrelay_receiver_take_numbered(&receiver, frame, len, &now, &kind, opened, sizeof opened,
                                                 &size, &number),
                 wanted == KRBRELAY_OK ? KRBRELAY_BADORDER : wanted, "receiver_take_numbered");
    krbrelay_receiver_free(&receiver);
}

/* The same frame many times in one call, by eights. */
static void take_together(size_t len, enum krbrelay_answer wanted)
{
    enum { TIMES = KRBRELAY_MOST_FRAMES };
    static struct krbrelay_taken taken[KRBRELAY_MOST_FRAMES];
    const struct krbrelay_expect demands = expected();
    struct krbrelay_receiver receiver = { 0 };
    struct krbrelay_frame all[TIMES];
    for (int i = 0; i < TIMES; i++)
        all[i] = (struct krbrelay_frame){ frame, len };
    has_answered(krbrelay_receiver_new(&receiver, etype, key, key_size(), &demands, NUMBER, 0),
                 KRBRELAY_OK, "receiver_new");
    has_answered(krbrelay_receiver_take_many(&receiver, all, TIMES, &now, opened, sizeof opened, taken),
                 KRBRELAY_OK, "receiver_take_many");
    for (int i = 0; i < TIMES; i++)
        has_answered((enum krbrelay_answer)taken[i].answer,
                     i > 0 && wanted == KRBRELAY_OK ? KRBRELAY_BADORDER : wanted, "one of several frames");
    krbrelay_receiver_free(&receiver);
}

/* The frame that was just sealed, by calls of one frame each. */
static void open_singly(size_t len, enum krbrelay_answer wanted)
{
    take_by_receiver(len, wanted);
    open_by_peer(len, wanted);
    open_by_opener(len, wanted);
}

static void open_by_all(size_t len, enum krbrelay_answer wanted)
{
    take_together(len, wanted);
    open_singly(len, wanted); /* the last of these opens it in place */
}

/* Frames of a text of each size and of a batch, each of which has the first number, with their last byte changed by
 * `mask`. */
static void open_all(uint8_t mask, enum krbrelay_answer wanted, void (*by)(size_t, enum krbrelay_answer))
{
    struct krbrelay_sealer sealer = { 0 };
    uint8_t batch[200];
    size_t count = sizeof opened_sizes / sizeof opened_sizes[0];
    for (size_t i = 0; i <= count; i++) {
        size_t len;
        make_sealer(&sealer);
        len = i < count ? sealed_record(&sealer, KRBRELAY_TEXT, text, opened_sizes[i])
                        : sealed_record(&sealer, KRBRELAY_BATCH, batch, two_texts(batch, sizeof batch));
        frame[len - 1] ^= mask;
        by(len, wanted);
        krbrelay_sealer_free(&sealer);
    }
}

static int note_base(struct dl_phdr_info *loaded, size_t size, void *base)
{
    (void)size;
    if (strstr(loaded->dlpi_name, "/libkrbrelay.so") != NULL)
        *(uintptr_t *)base = loaded->dlpi_addr;
    return 0;
}

int main(int count, char **words)
{
    enum krbrelay_answer refused;
    uintptr_t base = 0;
    if (count != 4)
        end("PART ETYPE MODE");
    etype = atoi(words[2]);
    mode = (uint32_t)atoi(words[3]);
    refused = mode == KRBRELAY_SAFE ? KRBRELAY_MODIFIED : KRBRELAY_BAD_INTEGRITY;
    dl_iterate_phdr(note_base, &base);
    printf("%" PRIxPTR "\n", base);
    draw_secrets();
    if (strcmp(words[1], "control") == 0)
        control();
    else if (strcmp(words[1], "seal") == 0)
        seal();
    else if (strcmp(words[1], "refuse") == 0)
        open_all(1, refused, open_singly);
    else if (strcmp(words[1], "refuse_together") == 0)
        open_all(1, refused, take_together);
    else if (strcmp(words[1], "open") == 0)
        open_all(0, KRBRELAY_OK, open_by_all);
    else
        end("no such part");
    return 0;
}
