/* The block of a handle, once freed, has no eight bytes in a row of what it held while it was in
 * use. Handles end in either order, by free, after a wipe, and by a new key in their place. And user
 * data of KRB-PRIV go through each call, with answers before and after they are deciphered. Built
 * with -Wl,--wrap=free, and run by tests/freed_memory, which looks for keys, user data and confounders in
 * all blocks that are freed.
 *
 *   freed_memory         ends handles in each way, and seals and opens
 *   freed_memory left    frees a block with the key in it, and one with user data, which is to be
 *                        reported */
#define _GNU_SOURCE
#include "check.h"
#include "krbrelay.h"
#include "session.h"

#include <malloc.h>
#include <stdlib.h>
#include <string.h>

enum { RUN = 8 };

static const struct krbrelay_moment now = { SECS, USEC, 0 };

static uint8_t key[32];
/* The block of a handle in use, and how many runs of its bytes stood in it when it was freed. */
struct watched { const void *block; uint8_t bytes[4096]; size_t size; int freed, runs; };
static struct watched watch[2];
static int blocks_freed;

void __real_free(void *block);
void __wrap_free(void *block);

/* How many runs of RUN bytes that aren't zero are the same in both. */
static int same_runs(const uint8_t *a, const uint8_t *b, size_t size)
{
    int runs = 0, length = 0;
    for (size_t i = 0; i < size; i++) {
        length = a[i] == b[i] && a[i] != 0 ? length + 1 : 0;
        runs += length == RUN;
    }
    return runs;
}

void __wrap_free(void *block)
{
    if (block != NULL) {
        blocks_freed++;
        for (int i = 0; i < 2; i++)
            if (watch[i].block == block) {
                watch[i].freed++;
                watch[i].runs = same_runs(watch[i].bytes, block, watch[i].size);
            }
    }
    __real_free(block);
}

/* Keeps what the block of a handle holds, in which its key must stand. */
static void watch_block(int i, void *block)
{
    watch[i].block = block;
    watch[i].size = malloc_usable_size(block);
    watch[i].freed = 0;
    watch[i].runs = 0;
    CHECK(watch[i].size <= sizeof watch[i].bytes);
    memcpy(watch[i].bytes, block, watch[i].size);
    CHECK(memmem(block, watch[i].size, key, 16) != NULL);
}

enum ending {
    FREE_SEALER_FIRST, FREE_OPENER_FIRST, WIPE_BEFORE_FREE, NEW_KEY, REFUSED_NEW, ENDINGS
};

static void end_both(struct krbrelay_sealer *s, struct krbrelay_opener *o, enum ending how, uint32_t mode)
{
    static const uint8_t other[32] = { 9, 8, 7, 6, 5, 4, 3, 2, 1 };
    struct krbrelay_session session = session_of(mode, 7);
    struct krbrelay_expect expect = expect_of(mode);
    if (how == FREE_OPENER_FIRST) {
        krbrelay_opener_free(o);
        CHECK(watch[1].freed == 1 && watch[0].freed == 0);
    }
    if (how == WIPE_BEFORE_FREE) {
        krbrelay_sealer_wipe(s);
        krbrelay_opener_wipe(o);
        for (int i = 0; i < 2; i++)
            CHECK(same_runs(watch[i].bytes, watch[i].block, watch[i].size) == 0);
        CHECK(watch[0].freed == 0 && watch[1].freed == 0);
    }
    if (how == NEW_KEY) {
        CHECK(krbrelay_sealer_new(s, 17, other, 16, &session) == KRBRELAY_OK);
        CHECK(krbrelay_opener_new(o, 17, other, 16, &expect) == KRBRELAY_OK);
        CHECK(watch[0].freed == 1 && watch[1].freed == 1);
    }
    if (how == REFUSED_NEW) {
        CHECK(krbrelay_sealer_new(s, 17, other, 17, &session) == KRBRELAY_KEY_SIZE);
        CHECK(krbrelay_opener_new(o, 17, other, 17, &expect) == KRBRELAY_KEY_SIZE);
        CHECK(watch[0].freed == 1 && watch[1].freed == 1);
    }
    krbrelay_sealer_free(s);
    krbrelay_opener_free(o);
}

static void no_keys_left(uint32_t mode, int etype, enum ending how)
{
    static uint8_t frame[KRBRELAY_FRAME_LIMIT], text[KRBRELAY_FRAME_LIMIT];
    static const uint8_t zeros[16];
    struct krbrelay_session session = session_of(mode, 7);
    struct krbrelay_expect expect = expect_of(mode);
    struct krbrelay_sealer s = { 0 };
    struct krbrelay_opener o = { 0 };
    size_t n = 0, m = 0;
    CHECK(krbrelay_sealer_new(&s, etype, key, key_size(etype), &session) == KRBRELAY_OK);
    CHECK(krbrelay_opener_new(&o, etype, key, key_size(etype), &expect) == KRBRELAY_OK);
    watch_block(0, s.at);
    watch_block(1, o.at);
    CHECK(krbrelay_sealer_seal(&s, frame, 50, &now, zeros, frame + 100, 60000, &n) == 0);
    CHECK(krbrelay_opener_unseal(&o, frame + 100, n, 7, &now, text, sizeof text, &m) == 0);
    end_both(&s, &o, how, mode);
    for (int i = 0; i < 2; i++) {
        CHECK(watch[i].freed >= 1);
        CHECK(watch[i].runs == 0);
    }
}

/* The same of a receiver, ended by free or by a new key in its place. */
static void no_keys_left_of_receiver(uint32_t mode, int etype, int new_key)
{
    static const uint8_t other[32] = { 9, 8, 7, 6, 5, 4, 3, 2, 1 };
    struct krbrelay_expect expect = expect_of(mode);
    struct krbrelay_receiver r = { 0 };
    CHECK(krbrelay_receiver_new(&r, etype, key, key_size(etype), &expect, 7, 0) == KRBRELAY_OK);
    watch_block(0, r.at);
    if (new_key)
        CHECK(krbrelay_receiver_new(&r, 17, other, 16, &expect, 7, 0) == KRBRELAY_OK);
    krbrelay_receiver_free(&r);
    CHECK(watch[0].freed >= 1 && watch[0].runs == 0);
}

/* The same of a peer, ended by free, by a new key, by a refused one, or by going on from an export. */
static void no_keys_left_of_peer(uint32_t mode, int etype, enum ending how)
{
    static const uint8_t none[KRBRELAY_PEER_STATE_SIZE];
    static const uint8_t other[32] = { 9, 8, 7, 6, 5, 4, 3, 2, 1 };
    struct krbrelay_session session = session_of(mode, 0);
    struct krbrelay_demand demand = demand_of(255, 1, 0);
    struct krbrelay_peer p = { 0 };
    CHECK(peer_of(&p, etype, key, mode, 1) == KRBRELAY_OK);
    watch_block(0, p.at);
    if (how == NEW_KEY)
        CHECK(peer_of(&p, 17, other, mode, 1) == KRBRELAY_OK);
    if (how == REFUSED_NEW)
        CHECK(krbrelay_peer_resume(&p, 17, other, 16, &session, &demand, none) == KRBRELAY_ARGUMENT);
    krbrelay_peer_free(&p);
    CHECK(watch[0].freed >= 1 && watch[0].runs == 0);
}

/* ---- user data */

enum { SIZE = 64, ROOM = 4096 };

static uint8_t user_data[SIZE];
static uint8_t confounder[16];

/* One KRB-PRIV of the user data at number 7. */
static size_t sealed(int etype, uint8_t *frame)
{
    struct krbrelay_session session = session_of(KRBRELAY_PRIV, 7);
    struct krbrelay_sealer s = { 0 };
    size_t n = 0;
    CHECK(krbrelay_sealer_new(&s, etype, key, key_size(etype), &session) == KRBRELAY_OK);
    CHECK(krbrelay_sealer_seal(&s, user_data, SIZE, &now, confounder, frame, ROOM, &n) == 0);
    krbrelay_sealer_free(&s);
    return n;
}

/* Opened, and refused after it was deciphered: for its number, its time, and its room. */
static void unseal_in_each_way(int etype)
{
    static uint8_t frame[ROOM], text[ROOM];
    struct krbrelay_expect expect = expect_of(KRBRELAY_PRIV);
    struct krbrelay_moment late = moment(SECS + 1000, USEC);
    struct krbrelay_opener o = { 0 };
    size_t n = sealed(etype, frame), m = 0;
    CHECK(krbrelay_opener_new(&o, etype, key, key_size(etype), &expect) == KRBRELAY_OK);
    CHECK(krbrelay_opener_unseal(&o, frame, n, 7, &now, text, ROOM, &m) == 0 && m == SIZE);
    CHECK(memcmp(text, user_data, SIZE) == 0);
    CHECK(krbrelay_opener_unseal(&o, frame, n, 8, &now, text, ROOM, &m) == KRBRELAY_BADORDER);
    CHECK(krbrelay_opener_unseal(&o, frame, n, 7, &late, text, ROOM, &m) == KRBRELAY_SKEW);
    CHECK(krbrelay_opener_unseal(&o, frame, n, 7, &now, text, SIZE - 1, &m) == KRBRELAY_ROOM);
    frame[n - 1] ^= 1;
    CHECK(krbrelay_opener_unseal(&o, frame, n, 7, &now, text, ROOM, &m) == KRBRELAY_BAD_INTEGRITY);
    frame[n - 1] ^= 1;
    CHECK(krbrelay_opener_unseal_in_place(&o, frame, n, 7, &now, &m) == 0 && m == SIZE);
    krbrelay_opener_free(&o);
}

/* The same by demands. */
static void open_in_each_way(int etype)
{
    static uint8_t frame[ROOM], text[ROOM];
    struct krbrelay_expect expect = expect_of(KRBRELAY_PRIV);
    struct krbrelay_demand demand = { .how_number = KRBRELAY_REQUIRED, .number = 7 };
    struct krbrelay_carried carried;
    struct krbrelay_opener o = { 0 };
    size_t n = sealed(etype, frame), m = 0;
    CHECK(krbrelay_opener_new(&o, etype, key, key_size(etype), &expect) == KRBRELAY_OK);
    CHECK(krbrelay_opener_open(&o, frame, n, &demand, &now, text, ROOM, &m, &carried) == 0);
    CHECK(m == SIZE && memcmp(text, user_data, SIZE) == 0);
    CHECK(krbrelay_opener_open(&o, frame, n, &demand, &now, text, 1, &m, &carried) == KRBRELAY_ROOM);
    demand.number = 8;
    CHECK(krbrelay_opener_open(&o, frame, n, &demand, &now, text, ROOM, &m, &carried)
          == KRBRELAY_BADORDER);
    krbrelay_opener_free(&o);
}

/* Records: a text and a batch, taken, and refused for their room; and user data that are no record. */
static void take_in_each_way(int etype)
{
    static uint8_t frames[3][ROOM], batch[ROOM], bytes[ROOM];
    struct krbrelay_session session = session_of(KRBRELAY_PRIV, 7);
    struct krbrelay_expect expect = expect_of(KRBRELAY_PRIV);
    struct krbrelay_sealer s = { 0 };
    struct krbrelay_receiver r = { 0 };
    size_t n[3] = { 0, 0, 0 }, size = 0, m = 0;
    uint32_t kind = 0;
    uint64_t number = 0;
    CHECK(krbrelay_batch_add(batch, ROOM, &size, user_data, SIZE) == KRBRELAY_OK);
    CHECK(krbrelay_batch_add(batch, ROOM, &size, user_data, SIZE) == KRBRELAY_OK);
    CHECK(krbrelay_sealer_new(&s, etype, key, key_size(etype), &session) == KRBRELAY_OK);
    CHECK(krbrelay_sealer_seal_record(&s, KRBRELAY_TEXT, user_data, SIZE, &now, confounder,
                                      frames[0], ROOM, &n[0]) == 0);
    CHECK(krbrelay_sealer_seal_record(&s, KRBRELAY_BATCH, batch, size, &now, confounder,
                                      frames[1], ROOM, &n[1]) == 0);
    CHECK(krbrelay_sealer_seal_record(&s, KRBRELAY_BATCH, batch, size - 1, &now, confounder,
                                      frames[2], ROOM, &n[2]) == KRBRELAY_RECORD);
    CHECK(krbrelay_sealer_seal(&s, user_data, SIZE, &now, confounder, frames[2], ROOM, &n[2]) == 0);
    CHECK(krbrelay_receiver_new(&r, etype, key, key_size(etype), &expect, 7, 0) == KRBRELAY_OK);
    CHECK(krbrelay_receiver_take(&r, frames[0], n[0], &now, &kind, bytes, 1, &m) == KRBRELAY_ROOM);
    for (int i = 0; i < 2; i++) {
        CHECK(krbrelay_receiver_take(&r, frames[i], n[i], &now, &kind, bytes, ROOM, &m) == 0);
        CHECK(m == (i == 0 ? SIZE : size));
    }
    CHECK(krbrelay_receiver_take(&r, frames[0], n[0], &now, &kind, bytes, ROOM, &m)
          == KRBRELAY_BADORDER);
    CHECK(krbrelay_receiver_take_numbered(&r, frames[0], n[0], &now, &kind, bytes, ROOM, &m, &number)
          == KRBRELAY_BADORDER && number == 7);
    CHECK(krbrelay_receiver_take(&r, frames[2], n[2], &now, &kind, bytes, ROOM, &m)
          == KRBRELAY_BAD_RECORD);
    krbrelay_sealer_free(&s);
    krbrelay_receiver_free(&r);
}

/* Frames in one call, eight side by side and one at a time: taken, and refused after they were deciphered, for
 * their room, for their number, for their code and as no record. */
static void take_several_in_each_way(int etype)
{
    enum { COUNT = 58 };
    static uint8_t frames[COUNT][ROOM], bytes[COUNT * ROOM];
    struct krbrelay_session session = session_of(KRBRELAY_PRIV, 7);
    struct krbrelay_expect expect = expect_of(KRBRELAY_PRIV);
    struct krbrelay_frame all[COUNT];
    struct krbrelay_taken taken[KRBRELAY_MOST_FRAMES];
    struct krbrelay_sealer s = { 0 };
    struct krbrelay_receiver r = { 0 };
    CHECK(krbrelay_sealer_new(&s, etype, key, key_size(etype), &session) == KRBRELAY_OK);
    for (size_t i = 0; i < COUNT; i++) {
        all[i].bytes = frames[i];
        CHECK((i == 9 ? krbrelay_sealer_seal(&s, user_data, SIZE, &now, confounder, frames[i], ROOM, &all[i].bytes_len)
               : krbrelay_sealer_seal_record(&s, KRBRELAY_TEXT, user_data, SIZE, &now, confounder, frames[i], ROOM,
                                             &all[i].bytes_len)) == KRBRELAY_OK);
    }
    frames[5][all[5].bytes_len - 1] ^= 1;
    CHECK(krbrelay_receiver_new(&r, etype, key, key_size(etype), &expect, 7, 0) == KRBRELAY_OK);
    CHECK(krbrelay_receiver_take_many(&r, all, COUNT, &now, bytes, SIZE - 1, taken) == KRBRELAY_OK);
    CHECK(taken[0].answer == KRBRELAY_ROOM && taken[1].answer == KRBRELAY_BADORDER);
    CHECK(krbrelay_receiver_take_many(&r, all, COUNT, &now, bytes, sizeof bytes, taken) == KRBRELAY_OK);
    CHECK(taken[4].answer == KRBRELAY_OK && taken[5].answer == KRBRELAY_BAD_INTEGRITY);
    CHECK(taken[6].answer == KRBRELAY_BADORDER && taken[COUNT - 1].answer == KRBRELAY_BADORDER);
    krbrelay_receiver_free(&r);
    CHECK(krbrelay_receiver_new(&r, etype, key, key_size(etype), &expect, 16, 0) == KRBRELAY_OK);
    CHECK(krbrelay_receiver_take_many(&r, all, COUNT, &now, bytes, sizeof bytes, taken) == KRBRELAY_OK);
    CHECK(taken[9].answer == KRBRELAY_BAD_RECORD && taken[10].answer == KRBRELAY_BADORDER);
    krbrelay_sealer_free(&s);
    krbrelay_receiver_free(&r);
}

/* Several messages in one call, eight side by side, four and one, by a sealer and by a peer: sealed, and refused
 * for their room once they are made. */
static void seal_several_in_each_way(int etype)
{
    enum { COUNT = 13 };
    static uint8_t frames[COUNT * ROOM];
    struct krbrelay_session session = session_of(KRBRELAY_PRIV, 7);
    struct krbrelay_unsealed messages[COUNT];
    struct krbrelay_sealer s = { 0 };
    struct krbrelay_peer p = { 0 };
    size_t sizes[KRBRELAY_MOST_MESSAGES], failed = 99;
    for (size_t i = 0; i < COUNT; i++) {
        messages[i] = (struct krbrelay_unsealed){ .user_data = user_data, .user_data_len = SIZE, .at = now };
        memcpy(messages[i].confounder, confounder, sizeof confounder);
    }
    CHECK(krbrelay_sealer_new(&s, etype, key, key_size(etype), &session) == KRBRELAY_OK);
    CHECK(peer_of(&p, etype, key, KRBRELAY_PRIV, 1) == KRBRELAY_OK);
    CHECK(krbrelay_sealer_seal_many(&s, messages, COUNT, frames, COUNT * SIZE, sizes, &failed) == KRBRELAY_ROOM);
    CHECK(krbrelay_sealer_seal_many(&s, messages, COUNT, frames, sizeof frames, sizes, &failed) == 0);
    CHECK(krbrelay_peer_seal_many(&p, messages, COUNT, frames, COUNT * SIZE, sizes, &failed) == KRBRELAY_ROOM);
    CHECK(krbrelay_peer_seal_many(&p, messages, COUNT, frames, sizeof frames, sizes, &failed) == 0);
    CHECK(failed == 99);
    krbrelay_sealer_free(&s);
    krbrelay_peer_free(&p);
}

/* Peers: opened, and refused after it was deciphered, for its number, its time, its address and its
 * room. */
static void open_by_a_peer_in_each_way(int etype)
{
    static uint8_t frame[ROOM], text[ROOM];
    struct krbrelay_moment late = moment(SECS + 1000, USEC);
    struct krbrelay_peer near = { 0 }, far = { 0 };
    struct krbrelay_carried carried;
    size_t n = 0, m = 0;
    CHECK(peer_of(&near, etype, key, KRBRELAY_PRIV, 1) == KRBRELAY_OK);
    CHECK(peer_of(&far, etype, key, KRBRELAY_PRIV, 255) == KRBRELAY_OK);
    CHECK(krbrelay_peer_seal(&near, user_data, SIZE, &now, confounder, frame, ROOM, &n) == 0);
    CHECK(krbrelay_peer_open(&near, frame, n, &now, text, ROOM, &m, &carried) == KRBRELAY_BADADDR);
    CHECK(krbrelay_peer_open(&far, frame, n, &late, text, ROOM, &m, &carried) == KRBRELAY_SKEW);
    CHECK(krbrelay_peer_open(&far, frame, n, &now, text, SIZE - 1, &m, &carried) == KRBRELAY_ROOM);
    CHECK(krbrelay_peer_open(&far, frame, n, &now, text, ROOM, &m, &carried) == 0 && m == SIZE);
    CHECK(memcmp(text, user_data, SIZE) == 0);
    CHECK(krbrelay_peer_open(&far, frame, n, &now, text, ROOM, &m, &carried) == KRBRELAY_BADORDER);
    krbrelay_peer_free(&near);
    krbrelay_peer_free(&far);
}

/* Each byte is written, though the block is freed then. */
static void leave_user_data(void)
{
    volatile uint8_t *block = malloc(SIZE);
    CHECK(block != NULL);
    for (int i = 0; block != NULL && i < SIZE; i++)
        block[i] = user_data[i];
    free((void *)block);
}

/* A block that is freed with its key in it is reported, and so is one with user data. */
static void leave_key(void)
{
    uint8_t *block = malloc(200);
    CHECK(block != NULL);
    if (block == NULL)
        return;
    memset(block, 0, 200);
    memcpy(block + 9, key, sizeof key);
    watch_block(0, block);
    free(block);
    CHECK(watch[0].freed == 1 && watch[0].runs == 1);
    leave_user_data();
}

static void end_in_each_way(void)
{
    for (uint32_t mode = KRBRELAY_SAFE; mode <= KRBRELAY_PRIV; mode++)
        for (int etype = 17; etype <= 18; etype++) {
            for (unsigned how = 0; how < ENDINGS; how++)
                no_keys_left(mode, etype, (enum ending)how);
            no_keys_left_of_receiver(mode, etype, 0);
            no_keys_left_of_receiver(mode, etype, 1);
            no_keys_left_of_peer(mode, etype, FREE_SEALER_FIRST);
            no_keys_left_of_peer(mode, etype, NEW_KEY);
            no_keys_left_of_peer(mode, etype, REFUSED_NEW);
        }
    for (int etype = 17; etype <= 18; etype++) {
        unseal_in_each_way(etype);
        open_in_each_way(etype);
        take_in_each_way(etype);
        take_several_in_each_way(etype);
        seal_several_in_each_way(etype);
        open_by_a_peer_in_each_way(etype);
    }
    CHECK(blocks_freed > 0);
}

int main(int argc, char **argv)
{
    check_only(2, argc, argv);
    for (int i = 0; i < 32; i++)
        key[i] = (uint8_t)(0xa0 + i * 5);
    for (int i = 0; i < SIZE; i++)
        user_data[i] = (uint8_t)(0x21 + i);
    for (int i = 0; i < 16; i++)
        confounder[i] = (uint8_t)(0xc1 + 3 * i);
    if (argc > 1 && strcmp(argv[1], "left") == 0)
        RUN(leave_key());
    else
        RUN(end_in_each_way());
    return check_status("freed_memory");
}
