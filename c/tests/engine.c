/* The ends of a carrier: structs that are no end, handles that are freed twice, and as many idle sessions as a sender
 * may have. What each call does, by docs/ENGINE.md, is tested over the same library by python/tests/test_engine.py, and
 * over drawn calls beside a model by carrier/tests/test_simulation_model.py.
 *
 *     engine [SESSIONS] */
#include "check.h"
#include "krbrelay.h"

#include <stdlib.h>
#include <string.h>
#include <time.h>

static const uint8_t own[KRBRELAY_HISTORY_SIZE] = { 1 };

/* ---- a session's end at a sender */

/* Each call refuses the struct, and leaves it and what it tells. */
static void refuses(struct krbrelay_sending it)
{
    struct krbrelay_sending s = it;
    struct krbrelay_command command = { 9, 9, 9, 9, 9 };
    struct krbrelay_receipt said = { .number = 1, .history = { 1 }, .asks = KRBRELAY_ASKS_NOTHING };
    uint64_t under_way = 99, room = 99;
    uint32_t flag = 99, settled = 99, stands = 99;
    IS_NOT(krbrelay_sending_sealed(&s, 1));
    IS_NOT(krbrelay_sending_confirmed(&s, 0, 1, 0, &flag));
    IS_NOT(krbrelay_sending_listed(&s, 1, &flag));
    IS_NOT(krbrelay_sending_reconnected(&s));
    IS_NOT(krbrelay_sending_receipt(&s, &said, own, 0, &flag));
    IS_NOT(krbrelay_sending_serve(&s, 8, 0, &command));
    IS_NOT(krbrelay_sending_state(&s, &under_way, &room, &settled, &stands));
    CHECK(memcmp(&s, &it, sizeof s) == 0 && flag == 99 && command.kind == 9);
    CHECK(under_way == 99 && room == 99 && settled == 99 && stands == 99);
}

static void no_ends(void)
{
    struct krbrelay_sending s, it;
    struct krbrelay_receipt said = { .number = 1, .history = { 1 } };
    uint32_t heard = 99;
    memset(&s, 7, sizeof s);
    it = s;
    IS_NOT(krbrelay_sending_load(&s, 4, 3, 0, 4, 5, 0));
    IS_NOT(krbrelay_sending_load(&s, 4, 5, 0, 4, 5, 0));
    CHECK(memcmp(&s, &it, sizeof s) == 0);
    IS(krbrelay_sending_load(&s, 4, 3, 9, 2, 5, 0));
    it = s, it.done = 4, refuses(it);
    it = s, it.progress.carried = 4, refuses(it);
    it = s, it.progress.sent = 5, refuses(it);
    it = s, it.window = 0, refuses(it);
    for (uint32_t ended = 3; ended; ended <<= 1)
        it = s, it.ended = ended, refuses(it);
    it = s;
    for (uint32_t asks = 4; asks; asks <<= 1) {
        said.asks = asks;
        IS_NOT(krbrelay_sending_receipt(&it, &said, own, 0, &heard));
    }
    said.asks = 0;
    IS_NOT(krbrelay_sending_receipt(&it, &said, own, 0, &heard));
    IS_NOT(krbrelay_sending_sealed(&it, UINT64_MAX - 3));
    CHECK(memcmp(&s, &it, sizeof s) == 0 && heard == 99);
    IS(krbrelay_sending_sealed(&it, UINT64_MAX - 4));
    CHECK(it.progress.next == UINT64_MAX);
}

/* Rows that are none, which the Python package doesn't pass on; and a session's end after a receipt that ends it. */
static void no_lane(void)
{
    static const struct krbrelay_stored none = { 3, 4, 0, 0, 0 }, behind = { 9, 4, 0, 5, 0 };
    static const struct krbrelay_stored stored = { .next = 3, .list = 7 };
    static const struct krbrelay_receipt no_receipt, forked = { .number = 3, .asks = KRBRELAY_ASKS_NOTHING };
    struct krbrelay_lane lane = KRBRELAY_INIT;
    struct krbrelay_sending end;
    uint32_t place = 99, heard = 99;
    IS_NOT(krbrelay_lane_add(&lane, &none, 0, &place));
    IS_NOT(krbrelay_lane_add(&lane, &behind, 0, &place));
    CHECK(place == 99);
    IS(krbrelay_lane_add(&lane, &stored, 0, &place));
    IS_NOT(krbrelay_lane_stop(&lane, 1));
    IS_NOT(krbrelay_lane_reload(&lane, 0, &none, 0));
    IS_NOT(krbrelay_lane_sealed(&lane, 0, UINT64_MAX - 2));
    IS_NOT(krbrelay_lane_receipt(&lane, 0, &no_receipt, own, KRBRELAY_OWN_UNKNOWN, 0, &heard));
    CHECK(heard == 99);
    IS(krbrelay_lane_receipt(&lane, 0, &forked, own, KRBRELAY_OWN_KNOWN, 80, &heard));
    IS(krbrelay_lane_session(&lane, 0, &end));
    CHECK(heard == KRBRELAY_HEARD_ENDED && end.ended == KRBRELAY_ENDED_FORKED && end.done == 0);
    krbrelay_lane_free(&lane);
}

/* ---- shards, and a session's end at a receiver */

static void no_flow(void)
{
    struct krbrelay_flow flow = { .has_list = 1, .under_way = 2212 }, before = flow;
    uint64_t room = 99;
    IS_NOT(krbrelay_flow_moved(&flow, 2213, 0));
    IS_NOT(krbrelay_flow_moved(&flow, 0, UINT64_MAX - 2211));
    flow.reserved = before.reserved = 1;
    IS_NOT(krbrelay_flow_moved(&flow, 0, 1));
    IS_NOT(krbrelay_flow_room(&flow, &room));
    CHECK(memcmp(&flow, &before, sizeof flow) == 0 && room == 99);
}

static uint32_t takes(struct krbrelay_receiving *r, struct krbrelay_seen seen)
{
    uint32_t outcome = 99;
    return krbrelay_receiving_take(r, (const uint8_t *)"x", 1, &seen, &outcome) == KRBRELAY_OK ? outcome : 99;
}

static void no_receivers(void)
{
    struct krbrelay_row row = { .number = UINT64_MAX };
    struct krbrelay_receiving r, before;
    struct krbrelay_receipt told = { .asks = 99 };
    krbrelay_receiving_load(&r, &row, 0);
    before = r;
    CHECK(takes(&r, (struct krbrelay_seen){ .accepted = 1 }) == 99);
    r.stored.number = r.drafted.number = before.stored.number = before.drafted.number = 7;
    CHECK(takes(&r, (struct krbrelay_seen){ .accepted = 1, .reserved = 1 }) == 99);
    for (uint32_t owed = 4; owed; owed <<= 1) {
        r.owed = before.owed = owed;
        CHECK(takes(&r, (struct krbrelay_seen){ .accepted = 1 }) == 99);
        IS_NOT(krbrelay_receiving_stored(&r));
        IS_NOT(krbrelay_receiving_dropped(&r));
        IS_NOT(krbrelay_receiving_receipt(&r, 0, &told));
        CHECK(memcmp(&r, &before, sizeof r) == 0 && told.asks == 99);
    }
}

static void no_reading(void)
{
    struct krbrelay_reading r, before;
    uint32_t read = 99;
    krbrelay_reading_load(&r, 6, 5);
    before = r;
    IS_NOT(krbrelay_reading_frames(&r, 6, 9, UINT64_MAX - 4, &read));
    r.reserved = before.reserved = 1;
    IS_NOT(krbrelay_reading_frames(&r, 6, 9, 1, &read));
    IS_NOT(krbrelay_reading_stored(&r));
    CHECK(memcmp(&r, &before, sizeof r) == 0 && read == 99);
}

/* Fields that aren't 0: of an opening, and of what is seen of a frame; and numbers that a shard doesn't have. */
static void no_arguments(void)
{
    static const struct krbrelay_head head = { .turn = 3, .number = 9, .history = { 1 }, .closed = 1 };
    static const struct krbrelay_opening opening = { .turn = 4, .number = 9, .history = { 1 }, .reserved = 1 };
    static const struct krbrelay_seen seen = { .accepted = 1, .reserved = 1 };
    static const struct krbrelay_row row = { .number = 7 };
    struct krbrelay_shard shard = KRBRELAY_INIT;
    struct krbrelay_receiving end;
    uint32_t told = 99;
    IS_NOT(krbrelay_judge(&head, &opening, &told));
    IS(krbrelay_shard_new(&shard, 0, 0));
    IS(krbrelay_shard_loaded(&shard, 7, 4));
    IS(krbrelay_shard_add(&shard, &row, &told));
    IS_NOT(krbrelay_shard_pass(&shard, 5));
    IS_NOT(krbrelay_shard_session(&shard, 1, &end));
    IS_NOT(krbrelay_shard_unpaid(&shard, 1, KRBRELAY_ASKS_NOTHING));
    IS_NOT(krbrelay_shard_unpaid(&shard, 0, 0));
    IS_NOT(krbrelay_shard_failed(&shard, 5, 5, &told));
    IS_NOT(krbrelay_shard_failed(&shard, 0, 5, &told));
    IS(krbrelay_shard_begin(&shard, 5, 1000, &told));
    told = 99;
    IS_NOT(krbrelay_shard_take(&shard, 0, own, 1, &seen, 5, &told));
    CHECK(told == 99);
    krbrelay_shard_free(&shard);
}

/* A handle that was freed holds nothing, and may be freed again. */
static void freed_twice(void)
{
    static const struct krbrelay_stored stored = { .next = 3, .list = 7 };
    static const struct krbrelay_row row = { .number = 7 };
    struct krbrelay_queue queue = KRBRELAY_INIT;
    struct krbrelay_lane lane = KRBRELAY_INIT;
    struct krbrelay_shard shard = KRBRELAY_INIT;
    struct krbrelay_served served = { .place = 99 };
    uint32_t place = 99;
    IS(krbrelay_queue_ready(&queue, 1));
    IS(krbrelay_lane_add(&lane, &stored, 0, &place));
    IS(krbrelay_shard_new(&shard, 0, 0));
    for (int i = 0; i < 2; i++) {
        krbrelay_queue_free(&queue);
        krbrelay_lane_free(&lane);
        krbrelay_shard_free(&shard);
        CHECK(queue.count == 0 && krbrelay_queue_len(&queue) == 0);
        CHECK(lane.count == 0 && krbrelay_lane_turn(&lane, 90, &served) == 0 && served.place == 99);
        CHECK(shard.count == 0 && krbrelay_shard_next_time(&shard) == UINT64_MAX);
        CHECK(krbrelay_shard_is_full(&shard, 9000) == 0);
    }
    IS_NOT(krbrelay_shard_loaded(&shard, 7, 4));
    IS_NOT(krbrelay_shard_add(&shard, &row, &place));
    IS_NOT(krbrelay_shard_stored(&shard));
    IS_NOT(krbrelay_shard_forget(&shard));
}

/* ---- many sessions */

static double seconds(void)
{
    struct timespec now;
    clock_gettime(CLOCK_MONOTONIC, &now);
    return (double)now.tv_sec + (double)now.tv_nsec / 1e9;
}

/* Idle ones cost their bytes, and a turn of each is one call. */
static void many(size_t count)
{
    struct krbrelay_sending *sessions = calloc(count, sizeof *sessions);
    struct krbrelay_command command = KRBRELAY_INIT;
    size_t are_idle = 0;
    double start = seconds(), took;
    CHECK(sizeof *sessions + 1 <= 210 && sizeof(struct krbrelay_receiving) <= 210);
    for (size_t i = 0; sessions != NULL && i < count; i++)
        IS(krbrelay_sending_load(&sessions[i], 3, 3, 9, 3, 5, 0));
    for (size_t i = 0; sessions != NULL && i < count; i++)
        are_idle += krbrelay_sending_serve(&sessions[i], 8, 1000, &command) == KRBRELAY_OK
                    && command.kind == KRBRELAY_COMMAND_IDLE;
    CHECK(are_idle == count);
    took = seconds() - start;
    printf("%zu idle sessions of %zu bytes: %.0f calls a second\n", count, sizeof *sessions,
           2 * (double)count / took);
    free(sessions);
}

int main(int argc, char **argv)
{
    check_only(2, argc, argv);
    RUN(no_ends());
    RUN(no_lane());
    RUN(no_flow());
    RUN(no_receivers());
    RUN(no_reading());
    RUN(no_arguments());
    RUN(freed_twice());
    RUN(many(argc > 1 ? strtoul(argv[1], NULL, 10) : 100000));
    return check_status("engine");
}
