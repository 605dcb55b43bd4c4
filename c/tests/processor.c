/* What the library does on this processor: `processor supported`, `processor unsupported` or `processor
 * refused`. Run under an emulator of an old processor too: no call ends the program there. The object for
 * x86-64-v3 says `refused` on an older one: there what makes a handle or reads a message answers, and
 * other calls, krbrelay_*_free among them, may need what the processor hasn't, so they aren't made.
 * `processor unsupported told` runs on any x86-64: it takes back what the compiler's library found, so a call
 * that doesn't ask is seen without an emulator. */
#include "check.h"
#include "frames.h"
#include "krbrelay.h"
#include "session.h"

#include <string.h>

static int is_refused;
static uint8_t key[16], frame[KRBRELAY_FRAME_SIZE(3)], text[sizeof frame];

/* Where the processor is supported, messages are made and opened. */
static void messages(void)
{
    struct krbrelay_session session = session_of(KRBRELAY_PRIV, 7);
    struct krbrelay_expect expect = expect_of(KRBRELAY_PRIV);
    struct krbrelay_moment at = moment(SECS, USEC);
    struct krbrelay_sealer s = KRBRELAY_INIT;
    struct krbrelay_opener o = KRBRELAY_INIT;
    uint8_t confounder[16] = { 0 };
    size_t size = 0;
    CHECK(krbrelay_sealer_new(&s, 17, key, sizeof key, &session) == KRBRELAY_OK);
    CHECK(krbrelay_opener_new(&o, 17, key, sizeof key, &expect) == KRBRELAY_OK);
    CHECK(krbrelay_sealer_seal(&s, (const uint8_t *)"Dhi", 3, &at, confounder, frame, sizeof frame,
                               &size) == KRBRELAY_OK);
    CHECK(size == sizeof priv_17 && memcmp(frame, priv_17, size) == 0);
    CHECK(krbrelay_opener_unseal(&o, frame, size, 7, &at, text, sizeof text, &size) == KRBRELAY_OK);
    CHECK(size == 3 && memcmp(text, "Dhi", 3) == 0);
    krbrelay_sealer_free(&s);
    krbrelay_opener_free(&o);
}

/* What makes a handle, or reads a message, answers this, and leaves an empty handle where it refuses. */
static void makers(enum krbrelay_answer answer)
{
    struct krbrelay_session session = session_of(KRBRELAY_PRIV, 7);
    struct krbrelay_expect expect = expect_of(KRBRELAY_PRIV);
    struct krbrelay_sealer s = KRBRELAY_INIT;
    struct krbrelay_opener o = KRBRELAY_INIT;
    struct krbrelay_receiver r = KRBRELAY_INIT;
    struct krbrelay_peer p = KRBRELAY_INIT, resumed = KRBRELAY_INIT;
    struct krbrelay_header header = KRBRELAY_INIT;
    struct krbrelay_demand demand = demand_of(255, 1, 0);
    static const uint8_t state[KRBRELAY_PEER_STATE_SIZE] = { 0x6b, 0x72, 0x73, 1 };
    uint8_t history[KRBRELAY_HISTORY_SIZE] = { 0 };
    int is_made = answer == KRBRELAY_OK;
    CHECK(krbrelay_sealer_new(&s, 17, key, sizeof key, &session) == answer);
    CHECK(krbrelay_opener_new(&o, 17, key, sizeof key, &expect) == answer);
    CHECK(krbrelay_receiver_new(&r, 17, key, sizeof key, &expect, 7, 0) == answer);
    CHECK(krbrelay_peer_new(&p, 17, key, sizeof key, &session, &demand) == answer);
    session.first = 0;
    CHECK(krbrelay_peer_resume(&resumed, 17, key, sizeof key, &session, &demand, state) == answer);
    CHECK(krbrelay_message_header(priv_17, sizeof priv_17, &header) == answer);
    CHECK(krbrelay_history_add(history, priv_17, sizeof priv_17) == answer);
    CHECK((history[0] != 0) == is_made);
    CHECK(krbrelay_sealer_is_empty(&s) == !is_made && krbrelay_opener_is_empty(&o) == !is_made);
    CHECK(krbrelay_peer_is_empty(&p) == !is_made && krbrelay_peer_is_empty(&resumed) == !is_made);
    CHECK(krbrelay_receiver_is_empty(&r) == !is_made && header.kind == (is_made ? KRBRELAY_PRIV : 0));
    if (is_refused)
        return;
    krbrelay_sealer_free(&s);
    krbrelay_opener_free(&o);
    krbrelay_receiver_free(&r);
    krbrelay_peer_free(&p);
    krbrelay_peer_free(&resumed);
}

/* The calls over a handle that holds nothing. */
static void empty_handles(void)
{
    static const struct krbrelay_demand any;
    struct krbrelay_sealer s = KRBRELAY_INIT;
    struct krbrelay_opener o = KRBRELAY_INIT;
    struct krbrelay_receiver r = KRBRELAY_INIT;
    struct krbrelay_peer p = KRBRELAY_INIT;
    struct krbrelay_moment at = moment(SECS, USEC);
    struct krbrelay_carried carried;
    const struct krbrelay_unsealed message = { .user_data = key, .user_data_len = 3, .at = at };
    const struct krbrelay_frame one = { priv_17, sizeof priv_17 };
    struct krbrelay_taken taken[KRBRELAY_MOST_FRAMES];
    uint8_t in_place[sizeof priv_17];
    size_t size = 99, sizes[KRBRELAY_MOST_MESSAGES], failed = 99;
    uint64_t number = 99;
    uint32_t kind = 99;
    memcpy(in_place, priv_17, sizeof in_place);
    CHECK(krbrelay_sealer_seal_now(&s, key, 3, frame, sizeof frame, &size) == KRBRELAY_EMPTY);
    CHECK(krbrelay_sealer_seal_record_now(&s, KRBRELAY_TEXT, key, 2, frame, sizeof frame, &size)
          == KRBRELAY_EMPTY);
    CHECK(krbrelay_sealer_next(&s, &number) == KRBRELAY_EMPTY);
    CHECK(krbrelay_sealer_frame_size(&s, 3, &at, &size) == KRBRELAY_EMPTY);
    CHECK(krbrelay_sealer_set_mode(&s, KRBRELAY_SAFE) == KRBRELAY_EMPTY);
    CHECK(krbrelay_opener_unseal(&o, priv_17, sizeof priv_17, 7, &at, text, sizeof text, &size)
          == KRBRELAY_EMPTY);
    CHECK(krbrelay_opener_unseal_in_place(&o, in_place, sizeof in_place, 7, &at, &size)
          == KRBRELAY_EMPTY);
    CHECK(krbrelay_opener_open(&o, priv_17, sizeof priv_17, &any, &at, text, sizeof text, &size,
                               &carried) == KRBRELAY_EMPTY);
    CHECK(krbrelay_receiver_take(&r, priv_17, sizeof priv_17, &at, &kind, text, sizeof text, &size)
          == KRBRELAY_EMPTY);
    CHECK(krbrelay_receiver_take_numbered(&r, priv_17, sizeof priv_17, &at, &kind, text, sizeof text,
                                          &size, &number) == KRBRELAY_EMPTY);
    CHECK(krbrelay_receiver_take_many(&r, &one, 1, &at, text, sizeof text, taken) == KRBRELAY_EMPTY);
    CHECK(krbrelay_receiver_state(&r, &number, &kind) == KRBRELAY_EMPTY);
    CHECK(krbrelay_peer_seal_now(&p, key, 3, frame, sizeof frame, &size) == KRBRELAY_EMPTY);
    CHECK(krbrelay_peer_open(&p, priv_17, sizeof priv_17, &at, text, sizeof text, &size, &carried)
          == KRBRELAY_EMPTY);
    CHECK(krbrelay_peer_state(&p, &number, &number) == KRBRELAY_EMPTY);
    CHECK(krbrelay_peer_export(&p, text) == KRBRELAY_EMPTY);
    CHECK(krbrelay_sealer_seal_many(&s, &message, 1, frame, sizeof frame, sizes, &failed) == KRBRELAY_EMPTY);
    CHECK(krbrelay_peer_seal_many(&p, &message, 1, frame, sizeof frame, sizes, &failed) == KRBRELAY_EMPTY);
    CHECK(size == 99 && number == 99 && kind == 99 && failed == 99);
    krbrelay_sealer_wipe(&s);
    krbrelay_opener_wipe(&o);
}

/* Where the processor isn't supported, each call of a sender's end says so. */
static void sending_is_refused(struct krbrelay_sending *sending)
{
    static const struct krbrelay_receipt receipt;
    static const struct krbrelay_head head;
    static const struct krbrelay_opening opening;
    static const uint8_t own[KRBRELAY_HISTORY_SIZE];
    static const struct krbrelay_stored row;
    struct krbrelay_lane lane = KRBRELAY_INIT;
    struct krbrelay_shard shard = KRBRELAY_INIT;
    struct krbrelay_command command;
    uint64_t under_way = 0, room = 0;
    uint32_t told = 0, stands = 0;
    CHECK(krbrelay_sending_load(sending, 3, 0, 0, 0, 1, 0) == KRBRELAY_PROCESSOR);
    CHECK(krbrelay_sending_sealed(sending, 1) == KRBRELAY_PROCESSOR);
    CHECK(krbrelay_sending_confirmed(sending, 0, 1, 0, &told) == KRBRELAY_PROCESSOR);
    CHECK(krbrelay_sending_listed(sending, 1, &told) == KRBRELAY_PROCESSOR);
    CHECK(krbrelay_sending_reconnected(sending) == KRBRELAY_PROCESSOR);
    CHECK(krbrelay_sending_receipt(sending, &receipt, own, 0, &told) == KRBRELAY_PROCESSOR);
    CHECK(krbrelay_sending_serve(sending, 8, 0, &command) == KRBRELAY_PROCESSOR);
    CHECK(krbrelay_sending_state(sending, &under_way, &room, &told, &stands) == KRBRELAY_PROCESSOR);
    CHECK(krbrelay_judge(&head, &opening, &told) == KRBRELAY_PROCESSOR);
    CHECK(krbrelay_lane_add(&lane, &row, 0, &told) == KRBRELAY_PROCESSOR);
    CHECK(krbrelay_lane_listed(&lane, 1, 7) == KRBRELAY_PROCESSOR && lane.count == 0);
    CHECK(krbrelay_shard_new(&shard, 0, 0) == KRBRELAY_PROCESSOR && shard.count == 0);
}

/* The ends of a carrier: one call of each kind. */
static void ends(void)
{
    struct krbrelay_sending sending;
    struct krbrelay_command command;
    struct krbrelay_reading reading;
    struct krbrelay_queue queue = KRBRELAY_INIT;
    struct krbrelay_pause pause;
    uint32_t told = 0;
    if (krbrelay_is_supported()) {
        CHECK(krbrelay_sending_load(&sending, 3, 0, 0, 0, 1, 0) == KRBRELAY_OK);
        CHECK(krbrelay_sending_serve(&sending, 8, 0, &command) == KRBRELAY_OK && command.count == 3);
    } else {
        sending_is_refused(&sending);
    }
    krbrelay_reading_load(&reading, 1, 0);
    CHECK(krbrelay_reading_frames(&reading, 1, 3, 3, &told) == KRBRELAY_OK && told == KRBRELAY_READ_TAKE);
    krbrelay_pause_begin(&pause, 7, 0);
    CHECK(krbrelay_pause_is_over(&pause, 6) == 0 && krbrelay_pause_end(&pause) == 7);
    CHECK(krbrelay_queue_ready(&queue, 9) == KRBRELAY_OK);
    CHECK(krbrelay_queue_serve(&queue, &told) == 1 && told == 9);
    krbrelay_queue_free(&queue);
}

/* Which field of a struct is wrong. */
static void fields(void)
{
    struct krbrelay_session session = session_of(KRBRELAY_PRIV, 7);
    struct krbrelay_expect expect = expect_of(KRBRELAY_PRIV);
    struct krbrelay_demand demand = demand_of(255, 1, 0);
    CHECK(krbrelay_check_session(&session) == KRBRELAY_FIELD_NONE);
    CHECK(krbrelay_check_expect(&expect) == KRBRELAY_FIELD_NONE);
    CHECK(krbrelay_check_demand(&demand) == KRBRELAY_FIELD_NONE);
    CHECK(krbrelay_check_peer_demand(&demand) == KRBRELAY_FIELD_NONE);
    session.reserved[4] = expect.reserved[3] = demand.reserved[3] = 1;
    CHECK(krbrelay_check_session(&session) == KRBRELAY_FIELD_RESERVED);
    CHECK(krbrelay_check_expect(&expect) == KRBRELAY_FIELD_RESERVED);
    CHECK(krbrelay_check_demand(&demand) == KRBRELAY_FIELD_RESERVED);
    CHECK(krbrelay_check_peer_demand(&demand) == KRBRELAY_FIELD_RESERVED);
    CHECK(strcmp(krbrelay_field_name(KRBRELAY_FIELD_RESERVED), "reserved") == 0);
}

/* The calls that take no handle. */
static void others(void)
{
    char name[KRBRELAY_TEXT_SIZE];
    struct krbrelay_moment now = KRBRELAY_INIT;
    struct krbrelay_progress progress;
    uint64_t again = 0;
    uint32_t counts = 0;
    size_t size = 0;
    for (uint32_t answer = 0; answer < 1000; answer++) {
        enum krbrelay_answer found = krbrelay_answer_name(answer, name, sizeof name, &size);
        CHECK(found == KRBRELAY_OK || found == KRBRELAY_ARGUMENT);
        CHECK(krbrelay_answer_text(answer, name, sizeof name, &size) == found);
        CHECK(krbrelay_strerror(answer) != NULL);
    }
    CHECK(krbrelay_answer_name(KRBRELAY_BADORDER, name, sizeof name, &size) == KRBRELAY_OK);
    CHECK(strcmp(name, "BADORDER") == 0);
    CHECK(krbrelay_frame_size(3) == KRBRELAY_FRAME_SIZE(3) && krbrelay_version() == KRBRELAY_VERSION);
    CHECK(krbrelay_now(&now) == KRBRELAY_OK && now.seconds > SECS);
    CHECK(krbrelay_progress_new(&progress, 7, 7, 0) == KRBRELAY_OK);
    CHECK(krbrelay_progress_store(&progress, 2) == KRBRELAY_OK);
    CHECK(krbrelay_progress_publish(&progress, 2) == KRBRELAY_OK);
    CHECK(krbrelay_progress_confirm(&progress, 7, 1, &counts) == KRBRELAY_OK && counts == 1);
    CHECK(krbrelay_progress_rewind(&progress, &again) == KRBRELAY_OK && again == 1);
    fields();
    ends();
    krbrelay_clear_stack();
}

#if defined(__x86_64__)
extern struct { unsigned vendor, type, subtype, features[1]; } __cpu_model;    /* of libgcc */

static void forget_features(void)
{
    __builtin_cpu_init();
    __cpu_model.features[0] = 0;
}
#else
static void forget_features(void) { }
#endif

int main(int argc, char **argv)
{
    int is_supported = argc > 1 && strcmp(argv[1], "supported") == 0;
    check_only(3, argc, argv);
    is_refused = argc > 1 && strcmp(argv[1], "refused") == 0;
    for (int i = 0; i < 16; i++)
        key[i] = (uint8_t)i;
    if (argc > 2 && strcmp(argv[2], "told") == 0)
        forget_features();
    CHECK(krbrelay_is_supported() == is_supported);
    RUN(makers(is_supported ? KRBRELAY_OK : KRBRELAY_PROCESSOR));
    if (is_supported)
        RUN(messages());
    if (!is_refused) {
        RUN(empty_handles());
        RUN(others());
    }
    return check_status(is_supported ? "processor, supported" : "processor, unsupported");
}
