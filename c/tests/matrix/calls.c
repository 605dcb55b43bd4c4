#include "calls.h"

#include <ctype.h>
#include <stdio.h>
#include <stdlib.h>
#include <string.h>
#include <sys/socket.h>
#include <netinet/in.h>

/* Each call, upon `given`, `told` and `handles`: CALL answers as it does, DOES is of one that answers nothing, SAYS of
 * one that has to say this, and REFUSES of one upon a handle that holds nothing. */
#define FUNCTION(name) static uint32_t name(void)
#define CALL(name, ...) FUNCTION(name) { return krbrelay_##name(__VA_ARGS__); }
#define DOES(name, ...) FUNCTION(name) { krbrelay_##name(__VA_ARGS__); return KRBRELAY_OK; }
#define SAYS(name, wanted, ...) \
    FUNCTION(name) { return krbrelay_##name(__VA_ARGS__) wanted ? KRBRELAY_OK : KRBRELAY_ARGUMENT; }
#define REFUSES(name, ...) \
    FUNCTION(name) { return krbrelay_##name(__VA_ARGS__) == KRBRELAY_ARGUMENT ? KRBRELAY_OK : KRBRELAY_EMPTY; }
#define IS_EMPTY(kind) \
    FUNCTION(kind##_is_empty) { return krbrelay_##kind##_is_empty(&handles.kind) ? KRBRELAY_EMPTY : KRBRELAY_OK; }
#define SEVERAL(name, kind) \
    FUNCTION(name) \
    { \
        make_several(); \
        return told_of_several(krbrelay_##name(&handles.kind, several.all, given.messages, out, given.room, \
                                               several.sizes, &several.failed)); \
    }

/* ---- the calls that make a handle */

CALL(sealer_new, &handles.sealer, given.etype, key, given.key_len, &given.session)
CALL(opener_new, &handles.opener, given.etype, key, given.key_len, &given.expect)
CALL(receiver_new, &handles.receiver, given.etype, key, given.key_len, &given.expect, given.expected, given.closed)
CALL(peer_new, &handles.peer, given.etype, key, given.key_len, &given.session, &given.demand)

static uint32_t peer_resume(void)
{
    static const uint8_t state[KRBRELAY_PEER_STATE_SIZE] = { 0x6b, 0x72, 0x73, 1, [11] = NUMBER, [19] = NUMBER };
    struct krbrelay_session session = given.session;
    struct krbrelay_demand demand = given.demand;
    session.first = 0;
    demand.number -= NUMBER;
    return krbrelay_peer_resume(&handles.peer, given.etype, key, given.key_len, &session, &demand, state);
}

/* ---- those that seal */

CALL(sealer_seal, &handles.sealer, given.body, given.body_len, &given.at, confounder, out, given.room, &told.size)
CALL(sealer_seal_record, &handles.sealer, given.kind, given.body, given.body_len, &given.at, confounder, out,
     given.room, &told.size)

/* Several messages, all alike, and what the calls that seal them tell. */
static struct { struct krbrelay_unsealed all[KRBRELAY_MOST_MESSAGES]; size_t sizes[KRBRELAY_MOST_MESSAGES], failed; } several;

static void make_several(void)
{
    memset(&several, 0, sizeof several);
    for (unsigned i = 0; i < given.messages; i++) {
        several.all[i] = (struct krbrelay_unsealed){ given.body, given.body_len, given.at, { 0 } };
        memcpy(several.all[i].confounder, confounder, sizeof several.all[i].confounder);
    }
}

/* Tells the size of the first frame. */
static uint32_t told_of_several(uint32_t answer)
{
    if (answer == KRBRELAY_OK)
        told.size = several.sizes[0];
    return answer;
}

SEVERAL(sealer_seal_many, sealer)
CALL(peer_seal, &handles.peer, given.body, given.body_len, &given.at, confounder, out, given.room, &told.size)
SEVERAL(peer_seal_many, peer)
CALL(sealer_seal_now, &handles.sealer, given.body, given.body_len, out, given.room, &told.size)
CALL(sealer_seal_record_now, &handles.sealer, given.kind, given.body, given.body_len, out, given.room, &told.size)
CALL(peer_seal_now, &handles.peer, given.body, given.body_len, out, given.room, &told.size)
SEVERAL(sealer_seal_many_now, sealer)
SEVERAL(peer_seal_many_now, peer)

/* ---- those that open */

CALL(opener_unseal, &handles.opener, frame, given.frame_len, given.number, &given.at, out, given.room, &told.size)

/* The frame's own bytes are the buffer: they are put into `out`, and taken out again where they stay. */
static uint32_t opener_unseal_in_place(void)
{
    static uint8_t before[BIG];
    uint32_t answer;
    memcpy(before, out, given.frame_len);
    memcpy(out, frame, given.frame_len);
    answer = krbrelay_opener_unseal_in_place(&handles.opener, out, given.frame_len, given.number, &given.at,
                                             &told.size);
    if (answer != KRBRELAY_OK && memcmp(out, frame, given.frame_len) == 0)
        memcpy(out, before, given.frame_len);
    return answer;
}

CALL(opener_open, &handles.opener, frame, given.frame_len, &given.demand, &given.at, out, given.room, &told.size,
     &told.carried)
CALL(receiver_take, &handles.receiver, frame, given.frame_len, &given.at, &told.kind, out, given.room, &told.size)
CALL(receiver_take_numbered, &handles.receiver, frame, given.frame_len, &given.at, &told.kind, out, given.room,
     &told.size, &told.number)

/* One frame, whose answer counts where the call has none of its own. */
static uint32_t receiver_take_many(void)
{
    struct krbrelay_taken taken[KRBRELAY_MOST_FRAMES] = { { 0, told.kind, told.size, told.number } };
    struct krbrelay_frame one = { frame, given.frame_len };
    uint32_t answer = krbrelay_receiver_take_many(&handles.receiver, &one, 1, &given.at, out, given.room, taken);
    told.kind = taken[0].kind;
    told.size = taken[0].size;
    told.number = taken[0].number;
    return answer == KRBRELAY_OK ? taken[0].answer : answer;
}

CALL(peer_open, &handles.peer, frame, given.frame_len, &given.at, out, given.room, &told.size, &told.carried)
CALL(message_header, frame, given.frame_len, &told.header)

/* ---- those that ask the allocator for nothing */

CALL(sealer_next, &handles.sealer, &told.next)
CALL(sealer_set_mode, &handles.sealer, given.mode)
CALL(peer_export, &handles.peer, told.state)
SAYS(version, == KRBRELAY_VERSION, )
CALL(now, &given.at)
CALL(sealer_frame_size, &handles.sealer, given.body_len, &given.at, &told.size)
CALL(receiver_state, &handles.receiver, &told.number, &told.closed)
CALL(peer_state, &handles.peer, &told.next, &told.number)
CALL(answer_name, KRBRELAY_BADORDER, (char *)out, given.room, &told.size)
CALL(answer_text, KRBRELAY_BADORDER, (char *)out, given.room, &told.size)
SAYS(frame_size, >= given.body_len, given.body_len)
DOES(sealer_wipe, &handles.sealer)
DOES(opener_wipe, &handles.opener)
DOES(sealer_free, &handles.sealer)
DOES(opener_free, &handles.opener)
DOES(receiver_free, &handles.receiver)
DOES(peer_free, &handles.peer)
DOES(clear_stack, )
static uint32_t is_supported(void) { return krbrelay_is_supported() ? KRBRELAY_OK : KRBRELAY_PROCESSOR; }
SAYS(is_refusal, != 0, KRBRELAY_BADORDER)
static uint32_t text_of(void) { return krbrelay_strerror(KRBRELAY_BADORDER) != NULL ? KRBRELAY_OK : KRBRELAY_ARGUMENT; }
SAYS(class_of, == KRBRELAY_CLASS_REFUSAL, KRBRELAY_BADORDER)
IS_EMPTY(sealer)
IS_EMPTY(opener)
IS_EMPTY(receiver)
IS_EMPTY(peer)
CALL(check_session, &given.session)
CALL(check_expect, &given.expect)
CALL(check_demand, &given.demand)
CALL(check_peer_demand, &given.demand)
static uint32_t field_name(void) { return strcmp(krbrelay_field_name(KRBRELAY_FIELD_MODE), "mode") == 0 ? KRBRELAY_OK : KRBRELAY_ARGUMENT; }

CALL(address_from, &(struct krbrelay_address){ 0 },
     (const struct sockaddr *)&(struct sockaddr_in){ .sin_family = AF_INET }, sizeof(struct sockaddr_in))
CALL(batch_add, out, given.room, &(size_t){ 0 }, given.body, given.body_len)
CALL(batch_next, (const uint8_t[]){ 0, 0, 0, 1, 'x' }, 5, &(size_t){ 0 }, &(const uint8_t *){ NULL }, &(size_t){ 0 })
CALL(progress_new, &(struct krbrelay_progress){ 0 }, 9, 7, 5)

static struct krbrelay_progress progress = { 9, 7, 5, 7 };
CALL(progress_store, &progress, 1)
CALL(progress_publish, &progress, 0)
CALL(progress_confirm, &progress, 0, 0, &told.kind)
CALL(progress_rewind, &progress, &told.number)
CALL(history_add, (uint8_t[KRBRELAY_HISTORY_SIZE]){ 0 }, given.body, given.body_len)

static struct krbrelay_window window;
DOES(window_new, &window, NUMBER)

static uint32_t window_take(void)
{
    krbrelay_window_new(&window, NUMBER);
    return krbrelay_window_take(&window, NUMBER);
}

/* ---- the ends of a carrier */

static struct krbrelay_sending sending = { .progress = { 9, 7, 5, 7 }, .done = 7, .window = 16 };
static struct krbrelay_receiving receiving;
static struct krbrelay_reading reading;
static struct krbrelay_flow flow;
static struct krbrelay_pause pause;
static struct krbrelay_queue none_wait;
static struct krbrelay_lane no_sessions;
static struct krbrelay_shard no_shard;

CALL(sending_load, &(struct krbrelay_sending){ .done = 0 }, 9, 7, 5, 7, 1, 0)
CALL(sending_sealed, &sending, 0)
CALL(sending_confirmed, &sending, 0, 0, 0, &told.kind)
CALL(sending_listed, &sending, 0, &told.kind)
CALL(sending_reconnected, &sending)
CALL(sending_receipt, &sending, &(struct krbrelay_receipt){ .number = 7, .asks = KRBRELAY_ASKS_NOTHING },
     (const uint8_t[KRBRELAY_HISTORY_SIZE]){ 0 }, 0, &told.kind)
CALL(sending_serve, &sending, 0, 0, &(struct krbrelay_command){ 0 })
CALL(sending_state, &sending, &(uint64_t){ 0 }, &(uint64_t){ 0 }, &(uint32_t){ 0 }, &(uint32_t){ 0 })
CALL(flow_room, &flow, &told.number)
CALL(flow_moved, &flow, 0, 0)
DOES(receiving_load, &receiving, &(struct krbrelay_row){ 0 }, 0)
CALL(receiving_take, &receiving, given.body, given.body_len, &(struct krbrelay_seen){ .accepted = 1 }, &told.kind)
CALL(receiving_stored, &receiving)
CALL(receiving_dropped, &receiving)
CALL(receiving_receipt, &receiving, 0, &(struct krbrelay_receipt){ 0 })
DOES(reading_load, &reading, 0, 0)
CALL(reading_frames, &reading, 0, 0, 0, &told.kind)
CALL(reading_stored, &reading)
CALL(judge, &(struct krbrelay_head){ 0 }, &(struct krbrelay_opening){ .turn = 1 }, &told.kind)
DOES(pause_begin, &pause, 1, 0)
SAYS(pause_is_over, == 1, &pause, UINT64_MAX)
SAYS(pause_end, < 9, &pause)
DOES(pause_grow, &pause, 1, 0)

/* Of a queue of its own, which asks for its blocks. */
static uint32_t queue_ready(void)
{
    struct krbrelay_queue queue = KRBRELAY_INIT;
    uint32_t answer = krbrelay_queue_ready(&queue, NUMBER);
    krbrelay_queue_free(&queue);
    return answer;
}

/* Of lanes of their own, which ask for their blocks. */
static uint32_t lane_add(void)
{
    static const struct krbrelay_stored row; /* with nothing to do: a queue without memory is made up for by a time */
    struct krbrelay_lane lane = KRBRELAY_INIT;
    uint32_t place, answer = krbrelay_lane_add(&lane, &row, 0, &place);
    krbrelay_lane_free(&lane);
    return answer;
}

static uint32_t lane_listed(void)
{
    struct krbrelay_lane lane = KRBRELAY_INIT;
    uint32_t answer = krbrelay_lane_listed(&lane, 1, NUMBER);
    krbrelay_lane_free(&lane);
    return answer;
}

/* Of one without a session: they refuse, and ask for nothing. */
REFUSES(lane_session, &no_sessions, 0, &sending)
REFUSES(lane_sealed, &no_sessions, 0, 1)
REFUSES(lane_confirmed, &no_sessions, 0, 0, 1, 0, &told.kind)
REFUSES(lane_stop, &no_sessions, 0)
REFUSES(lane_release, &no_sessions, 0)
DOES(lane_free, &no_sessions)
REFUSES(lane_reload, &no_sessions, 0, &(struct krbrelay_stored){ 0 }, 0)
REFUSES(lane_receipt, &no_sessions, 0, &(struct krbrelay_receipt){ .asks = KRBRELAY_ASKS_NOTHING },
        (const uint8_t[KRBRELAY_HISTORY_SIZE]){ 0 }, KRBRELAY_OWN_UNKNOWN, 0, &told.kind)
SAYS(lane_turn, == 0, &no_sessions, 0, &(struct krbrelay_served){ .place = 0 })
SAYS(lane_next_time, == UINT64_MAX, &no_sessions)

/* Of a shard of its own, which asks for its block. */
static uint32_t shard_new(void)
{
    struct krbrelay_shard shard = KRBRELAY_INIT;
    uint32_t answer = krbrelay_shard_new(&shard, 0, 0);
    krbrelay_shard_free(&shard);
    return answer;
}

/* One in which a transaction is under way, of one session. */
static enum krbrelay_answer begun(struct krbrelay_shard *shard)
{
    static const struct krbrelay_row row;
    uint32_t told_now;
    enum krbrelay_answer answer = krbrelay_shard_new(shard, 0, 0);
    if (answer == KRBRELAY_OK)
        answer = krbrelay_shard_add(shard, &row, &told_now);
    if (answer == KRBRELAY_OK)
        answer = krbrelay_shard_begin(shard, 0, 0, &told_now);
    return answer;
}

static uint32_t shard_add(void)
{
    struct krbrelay_shard shard = KRBRELAY_INIT;
    uint32_t answer = begun(&shard);
    krbrelay_shard_free(&shard);
    return answer;
}

static uint32_t shard_take(void)
{
    static const struct krbrelay_seen seen = { .accepted = 1 };
    struct krbrelay_shard shard = KRBRELAY_INIT;
    enum krbrelay_answer answer = begun(&shard);
    if (answer == KRBRELAY_OK)
        answer = krbrelay_shard_take(&shard, 0, given.body, given.body_len, &seen, 0, &told.kind);
    krbrelay_shard_free(&shard);
    return answer;
}

/* Of a handle without one: they refuse, and ask for nothing. */
REFUSES(shard_loaded, &no_shard, 0, 0)
REFUSES(shard_listed, &no_shard, 0, 0, &told.kind)
REFUSES(shard_found, &no_shard, 0, 0, &told.kind)
REFUSES(shard_forget, &no_shard)
REFUSES(shard_reading, &no_shard, &reading)
REFUSES(shard_session, &no_shard, 0, &receiving)
REFUSES(shard_turn, &no_shard, 0, &told.kind, &told.number)
REFUSES(shard_begin, &no_shard, 0, 0, &told.kind)
REFUSES(shard_pass, &no_shard, 0)
SAYS(shard_is_full, == 0, &no_shard, 0)
REFUSES(shard_stored, &no_shard)
REFUSES(shard_failed, &no_shard, KRBRELAY_FAILURE_FAULT, 0, &told.kind)
REFUSES(shard_unpaid, &no_shard, 0, KRBRELAY_ASKS_NOTHING)
DOES(shard_free, &no_shard)
REFUSES(shard_receipt, &no_shard, 0, &told.kind, &(struct krbrelay_receipt){ 0 })
SAYS(shard_next_time, == UINT64_MAX, &no_shard)
CALL(queue_serve, &none_wait, &told.kind)
SAYS(queue_len, == 0, &none_wait)
DOES(queue_free, &none_wait)

/* ---- the table */

#define ROW(name, does, uses, ...) { #name, name, does, uses, __VA_ARGS__ }
#define NONE(name, uses) { #name, name, ASKS_NOTHING, uses, OF_DATA, 0, 0, 0 }

struct call calls[] = {
    ROW(sealer_new, MAKES, SEALER, OF_DATA, 0, 0, 0),
    ROW(opener_new, MAKES, OPENER, OF_DATA, 0, 0, 0),
    ROW(receiver_new, MAKES, RECEIVER, OF_RECORDS, 0, 0, 0),
    ROW(peer_new, MAKES, PEER, OF_DATA, 0, 0, 0),
    ROW(peer_resume, MAKES, PEER, OF_DATA, 0, 0, 0),
    ROW(sealer_seal, SEALS, SEALER, OF_DATA, 0, 0, 0),
    ROW(sealer_seal_record, SEALS, SEALER, OF_RECORDS, 0, 0, 0),
    ROW(sealer_seal_many, SEALS, SEALER, OF_DATA, 0, 0, 0),
    ROW(peer_seal, SEALS, PEER, OF_DATA, 0, 0, 0),
    ROW(peer_seal_many, SEALS, PEER, OF_DATA, 0, 0, 0),
    ROW(sealer_seal_now, SEALS, SEALER, OF_DATA, 1, 0, 0),
    ROW(sealer_seal_record_now, SEALS, SEALER, OF_RECORDS, 1, 0, 0),
    ROW(peer_seal_now, SEALS, PEER, OF_DATA, 1, 0, 0),
    ROW(sealer_seal_many_now, SEALS, SEALER, OF_DATA, 1, 0, 0),
    ROW(peer_seal_many_now, SEALS, PEER, OF_DATA, 1, 0, 0),
    ROW(opener_unseal, OPENS, OPENER, OF_DATA, 0, 0, 0),
    ROW(opener_unseal_in_place, OPENS, OPENER, OF_DATA, 0, 1, 0),
    ROW(opener_open, OPENS, OPENER, OF_DATA, 0, 0, 0),
    ROW(receiver_take, OPENS, RECEIVER, OF_RECORDS, 0, 0, 0),
    ROW(receiver_take_numbered, OPENS, RECEIVER, OF_RECORDS, 0, 0, 0),
    ROW(receiver_take_many, OPENS, RECEIVER, OF_RECORDS, 0, 0, 0),
    ROW(peer_open, OPENS, PEER, OF_DATA, 0, 0, 0),
    ROW(message_header, OPENS, NO_HANDLE, OF_DATA, 0, 0, 0),
    NONE(sealer_frame_size, SEALER), NONE(sealer_next, SEALER), NONE(sealer_set_mode, SEALER),
    NONE(receiver_state, RECEIVER), NONE(peer_state, PEER), NONE(peer_export, PEER),
    NONE(sealer_wipe, SEALER), NONE(opener_wipe, OPENER), NONE(sealer_free, SEALER), NONE(opener_free, OPENER),
    NONE(receiver_free, RECEIVER), NONE(peer_free, PEER), NONE(sealer_is_empty, SEALER),
    NONE(opener_is_empty, OPENER), NONE(receiver_is_empty, RECEIVER), NONE(peer_is_empty, PEER),
    NONE(version, NO_HANDLE), NONE(now, NO_HANDLE), NONE(answer_name, NO_HANDLE), NONE(answer_text, NO_HANDLE),
    NONE(frame_size, NO_HANDLE), NONE(clear_stack, NO_HANDLE), NONE(is_supported, NO_HANDLE),
    NONE(is_refusal, NO_HANDLE), { "strerror", text_of, ASKS_NOTHING, NO_HANDLE, OF_DATA, 0, 0, 0 },
    NONE(check_session, NO_HANDLE), NONE(check_expect, NO_HANDLE), NONE(check_demand, NO_HANDLE),
    NONE(check_peer_demand, NO_HANDLE), NONE(field_name, NO_HANDLE),
    NONE(class_of, NO_HANDLE), NONE(address_from, NO_HANDLE), NONE(batch_add, NO_HANDLE),
    NONE(batch_next, NO_HANDLE), NONE(progress_new, NO_HANDLE), NONE(progress_store, NO_HANDLE),
    NONE(progress_publish, NO_HANDLE), NONE(progress_confirm, NO_HANDLE), NONE(progress_rewind, NO_HANDLE),
    NONE(window_new, NO_HANDLE),
    NONE(window_take, NO_HANDLE), NONE(history_add, NO_HANDLE),
    NONE(sending_load, NO_HANDLE), NONE(sending_sealed, NO_HANDLE), NONE(sending_confirmed, NO_HANDLE),
    NONE(sending_listed, NO_HANDLE), NONE(sending_reconnected, NO_HANDLE), NONE(sending_receipt, NO_HANDLE),
    NONE(sending_serve, NO_HANDLE), NONE(sending_state, NO_HANDLE), NONE(flow_room, NO_HANDLE),
    NONE(flow_moved, NO_HANDLE), NONE(receiving_load, NO_HANDLE), NONE(receiving_take, NO_HANDLE),
    NONE(receiving_stored, NO_HANDLE), NONE(receiving_dropped, NO_HANDLE), NONE(receiving_receipt, NO_HANDLE),
    NONE(reading_load, NO_HANDLE), NONE(reading_frames, NO_HANDLE), NONE(reading_stored, NO_HANDLE),
    NONE(judge, NO_HANDLE), NONE(pause_begin, NO_HANDLE), NONE(pause_is_over, NO_HANDLE),
    NONE(pause_end, NO_HANDLE), NONE(pause_grow, NO_HANDLE), NONE(queue_serve, NO_HANDLE),
    NONE(queue_len, NO_HANDLE), NONE(queue_free, NO_HANDLE),
    ROW(lane_add, KEEPS_NOTHING, NO_HANDLE, OF_DATA, 0, 0, 0),
    ROW(lane_listed, KEEPS_NOTHING, NO_HANDLE, OF_DATA, 0, 0, 0),
    NONE(lane_reload, NO_HANDLE), NONE(lane_session, NO_HANDLE), NONE(lane_turn, NO_HANDLE),
    NONE(lane_next_time, NO_HANDLE), NONE(lane_sealed, NO_HANDLE), NONE(lane_confirmed, NO_HANDLE),
    NONE(lane_receipt, NO_HANDLE), NONE(lane_stop, NO_HANDLE), NONE(lane_release, NO_HANDLE),
    NONE(lane_free, NO_HANDLE),
    ROW(shard_new, KEEPS_NOTHING, NO_HANDLE, OF_DATA, 0, 0, 0),
    ROW(shard_add, KEEPS_NOTHING, NO_HANDLE, OF_DATA, 0, 0, 0),
    ROW(shard_take, KEEPS_NOTHING, NO_HANDLE, OF_DATA, 0, 0, 0),
    NONE(shard_loaded, NO_HANDLE), NONE(shard_listed, NO_HANDLE), NONE(shard_found, NO_HANDLE),
    NONE(shard_forget, NO_HANDLE), NONE(shard_reading, NO_HANDLE), NONE(shard_session, NO_HANDLE),
    NONE(shard_turn, NO_HANDLE), NONE(shard_next_time, NO_HANDLE), NONE(shard_begin, NO_HANDLE),
    NONE(shard_pass, NO_HANDLE), NONE(shard_is_full, NO_HANDLE), NONE(shard_stored, NO_HANDLE),
    NONE(shard_failed, NO_HANDLE), NONE(shard_receipt, NO_HANDLE), NONE(shard_unpaid, NO_HANDLE),
    NONE(shard_free, NO_HANDLE),
    ROW(queue_ready, KEEPS_NOTHING, NO_HANDLE, OF_DATA, 0, 0, 0),
};
const int call_count = sizeof calls / sizeof *calls;

struct call *call_of(const char *name)
{
    for (int i = 0; i < call_count; i++)
        if (strcmp(calls[i].name, name) == 0)
            return &calls[i];
    return NULL;
}

/* ---- the table beside the header */

/* Reads on to the end of a comment, of which the beginning was read. */
static void read_comment(FILE *file)
{
    int before = 0, at;
    while ((at = fgetc(file)) != EOF && !(before == '*' && at == '/'))
        before = at;
}

/* The next word, or one other character as a word; what is in comments is passed by. Answers whether there
 * is one. */
static int read_word(FILE *file, char *word, size_t room)
{
    size_t len = 0;
    int at = fgetc(file), next;
    while (at == '/' && (next = fgetc(file)) == '*') {
        read_comment(file);
        at = fgetc(file);
    }
    while ((isalnum(at) || at == '_') && len + 1 < room) {
        word[len++] = (char)at;
        at = fgetc(file);
    }
    if (len == 0)
        word[len++] = (char)at;
    else
        ungetc(at, file);
    word[len] = 0;
    return at != EOF;
}

int calls_compared(const char *header)
{
    char before[100] = "", word[100];
    int faults = 0, declared = 0;
    FILE *file = fopen(header, "r");
    while (file != NULL && read_word(file, word, sizeof word)) {
        int is_call = strcmp(word, "(") == 0 && strncmp(before, "krbrelay_", 9) == 0;
        if (is_call && call_of(before + 9) == NULL)
            faults++, printf("matrix: no row has %s, which the header declares\n", before);
        declared += is_call;
        strcpy(before, word);
    }
    if (file == NULL || declared != call_count)
        faults++, printf("matrix: the header declares %d functions, and there are %d rows\n", declared, call_count);
    if (file != NULL)
        fclose(file);
    for (int i = 0; i < call_count; i++)
        if (calls[i].cases == 0)
            faults++, printf("matrix: nothing tried krbrelay_%s\n", calls[i].name);
    return faults;
}
