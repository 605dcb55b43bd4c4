/* Around the calls of krb_engine (--wrap): whose turn it is; and the fault that is planted, the opposite of one of its
 * laws, which changes what a call is given or what it answers. */
#include "clock.h"
#include "world.h"

#include <krbrelay.h>
#include <string.h>

#define PLANTS(X) \
    X(NO_OPENINGS, "a probe never has the opening") \
    X(NO_PATIENCE, "pauses don't grow") \
    X(ANY_CONFIRMED, "confirmed counts out of order") \
    X(ANY_OFFSET, "a confirmation counts at any offset") \
    X(SAME_LIST, "another list: goes on at what was carried") \
    X(LAST_FIRST, "last in, first out") \
    X(WAITS_FOR_CUT, "a list that was cut off is waited for") \
    X(ANY_HISTORY, "an opening is taken on any history") \
    X(BEFORE_CLOSE, "an opening is taken before the close before it") \
    X(ANY_TURN, "another session of a turn that was had begins") \
    X(WINDOW_STAYS, "the window stays after a silence") \
    X(NOT_HELD_BACK, "a refused frame isn't held") \
    X(EAGER_ASKS, "the pause of asks doesn't grow") \
    X(LATE_PROBE, "the first probe comes after 300 s") \
    X(LATE_AGAIN, "the first repeat comes after 64 s") \
    X(NARROW, "one frame is under way at most") \
    X(NO_BOUND, "a shard has no bound") \
    X(RECEIPTS_AT_ONCE, "receipts have no pause between them") \
    X(ALL_STAND, "all sessions are said to stand") \
    X(NO_RECOVERY, "all frames leave at once after one was asked for")

#define PLANT_VALUE(name, text) PLANT_##name,
#define PLANT_TEXT(name, text) text,
static enum plant { PLANT_NONE, PLANTS(PLANT_VALUE) PLANT_COUNT } plant;
static const char *const texts[] = { "", PLANTS(PLANT_TEXT) };

/* Milliseconds of the engine's pauses, and of the faults'. */
enum { AGAIN = 2000, PROBE = 5000, ASK = 4000, LATE_AGAIN = 64000, LATE_PROBE = 300000, RECEIPTS_PAUSE = 200 };
enum { LANES = SENDERS * SHARDS, PLACES = 4096, MOST_TURNS = 64 + 4 * MOST_NAMES, MOST_OVERTAKEN = 64 };

int engine_plant(const char *text)
{
    unsigned i = 0;
    while (i < PLANT_COUNT && strcmp(texts[i], text) != 0)
        i++;
    plant = (enum plant)i;
    return i < PLANT_COUNT;
}

/* ---- The sessions of a sender's lanes */

/* What is seen of a session. */
struct place {
    uint64_t since, order;      /* it waits since this turn of the lane (0: it doesn't), as this one of all that did */
    uint64_t overtaken;         /* so many that waited for less long were served before it */
    uint64_t left, left_at;     /* frames below this number have left, the last one for the first time at this moment */
    uint64_t kept;              /* frames that were sealed, and the lane isn't told yet */
    uint64_t loaded;            /* when the program loaded it */
    struct krbrelay_stored row; /* as it was seen last */
    uint32_t opens, is_stopped;
};
static struct seen_lane {
    const struct krbrelay_lane *handle;
    uint64_t turns, waits;      /* turns in which something left, and sessions that began to wait */
    uint32_t count;
    struct place at[PLACES];
} lanes[LANES];

static struct seen_lane *lane_of(const struct krbrelay_lane *handle)
{
    unsigned i = 0;
    while (i + 1 < LANES && lanes[i].handle != NULL && lanes[i].handle != handle)
        i++;
    lanes[i].handle = handle;
    return &lanes[i];
}

/* No run has so many sessions; those above have one place. */
static struct place *place_of(const struct krbrelay_lane *handle, uint32_t place)
{
    return &lane_of(handle)->at[place < PLACES ? place : PLACES - 1];
}

static struct krbrelay_stored row_of(const struct krbrelay_sending *end)
{
    const struct krbrelay_progress *it = &end->progress;
    return (struct krbrelay_stored){ it->next, it->carried, it->at, end->done, end->list };
}

WRAPPED(enum krbrelay_answer, krbrelay_lane_add, struct krbrelay_lane *handle, const struct krbrelay_stored *row,
        uint32_t opens, uint32_t *place)
{
    enum krbrelay_answer answer = __real_krbrelay_lane_add(handle, row, opens, place);
    if (answer == KRBRELAY_OK) {
        *place_of(handle, *place) = (struct place){ .row = *row, .opens = opens, .loaded = milliseconds() };
        lane_of(handle)->count = *place < PLACES ? *place + 1 : PLACES;
    }
    return answer;
}

WRAPPED(enum krbrelay_answer, krbrelay_lane_reload, struct krbrelay_lane *handle, uint32_t place,
        const struct krbrelay_stored *row, uint32_t opens)
{
    *place_of(handle, place) = (struct place){ .row = *row, .opens = opens, .loaded = milliseconds() };
    return __real_krbrelay_lane_reload(handle, place, row, opens);
}

WRAPPED(enum krbrelay_answer, krbrelay_lane_stop, struct krbrelay_lane *handle, uint32_t place)
{
    place_of(handle, place)->since = 0;
    place_of(handle, place)->is_stopped = 1;
    return __real_krbrelay_lane_stop(handle, place);
}

WRAPPED(enum krbrelay_answer, krbrelay_lane_session, struct krbrelay_lane *handle, uint32_t place,
        struct krbrelay_sending *end)
{
    enum krbrelay_answer answer = __real_krbrelay_lane_session(handle, place, end);
    if (answer == KRBRELAY_OK) {
        place_of(handle, place)->row = row_of(end);
        end->progress.next += place_of(handle, place)->kept;
    }
    return answer;
}

/* The end of a session that isn't stopped; 0 if it is. */
static int find_end(struct krbrelay_lane *handle, uint32_t place, struct krbrelay_sending *end)
{
    return __real_krbrelay_lane_session(handle, place, end) == KRBRELAY_OK && end->ended == KRBRELAY_ENDED_NOT
           && !place_of(handle, place)->is_stopped;
}

/* The lane has this of a session: its pauses and its window begin anew, and what isn't carried leaves again. */
static void load_again(struct krbrelay_lane *handle, uint32_t place, struct krbrelay_stored row)
{
    (void)__real_krbrelay_lane_reload(handle, place, &row, place_of(handle, place)->opens); /* a row of its own */
}

WRAPPED(enum krbrelay_answer, krbrelay_lane_sealed, struct krbrelay_lane *handle, uint32_t place, uint64_t count)
{
    struct seen_lane *of = lane_of(handle);
    struct place *it = place_of(handle, place);
    if (it->since == 0 && count > 0) {
        it->since = of->turns + 1;
        it->order = ++of->waits;
        it->overtaken = 0;
    }
    if (plant != PLANT_LAST_FIRST && plant != PLANT_NARROW)
        return __real_krbrelay_lane_sealed(handle, place, count);
    it->kept += count;
    return KRBRELAY_OK;
}

/* ---- Turns */

/* Of those that wait, each has its turn before those that began later, but for some whose time came. */
static void note_turn(const struct krbrelay_lane *handle, const struct krbrelay_served *served)
{
    struct seen_lane *of = lane_of(handle);
    struct place *it = place_of(handle, served->place), *other;
    int leaves = served->command.kind == KRBRELAY_COMMAND_PUBLISH;
    of->turns += leaves != 0;
    if (it->since > 0 && of->turns > it->since + MOST_TURNS)
        rule_broken(RULE_UNFAIR, "a session's turn came after more than %d of others", MOST_TURNS);
    if (served->command.kind == KRBRELAY_COMMAND_PROBE && milliseconds() < it->loaded + PROBE / 2)
        rule_broken(RULE_FLOOD, "a session that was loaded now doesn't wait for its receipt");
    if (!leaves || it->since == 0 || served->command.number < it->left)
        return;
    for (other = of->at; other < of->at + of->count; other++)
        if (other->since > 0 && other->order < it->order && ++other->overtaken > MOST_OVERTAKEN)
            rule_broken(RULE_UNFAIR, "a session waits, and %d that waited for less long were served", MOST_OVERTAKEN);
}

/* The fault: the lane hears of what was sealed for the session that began to wait last; or of one frame of a session
 * of which all others are carried. 0: of none. */
static int tell_more(struct krbrelay_lane *handle)
{
    struct seen_lane *of = lane_of(handle);
    struct krbrelay_sending end;
    struct place *last = NULL, *it;
    uint64_t count;
    for (it = of->at; it < of->at + of->count; it++)
        if (it->kept > 0 && find_end(handle, (uint32_t)(it - of->at), &end)
            && (plant == PLANT_LAST_FIRST ? last == NULL || it->order > last->order
                                          : end.progress.carried == end.progress.next))
            last = it;
    if (last == NULL)
        return 0;
    count = plant == PLANT_LAST_FIRST ? last->kept : 1;
    last->kept -= count;
    return __real_krbrelay_lane_sealed(handle, (uint32_t)(last - of->at), count) == KRBRELAY_OK;
}

/* The fault: what was sealed leaves, if its session has room. */
static uint32_t serve_beyond(struct krbrelay_lane *handle, struct krbrelay_served *served)
{
    struct krbrelay_sending end;
    uint64_t from, limit;
    uint32_t i;
    for (i = 0; i < lane_of(handle)->count; i++) {
        const struct place *it = place_of(handle, i);
        if (!find_end(handle, i, &end) || end.is_held || end.done < end.recovers
            || (it->opens && end.progress.sent == 0))
            continue;
        from = it->left > end.progress.carried ? it->left : end.progress.carried;
        limit = end.progress.carried + end.window;
        limit = limit < end.progress.next ? limit : end.progress.next;
        if (from >= limit)
            continue;
        *served = (struct krbrelay_served){ .place = i, .command.kind = KRBRELAY_COMMAND_PUBLISH,
                                            .command.number = from, .command.count = limit - from };
        return 1;
    }
    return 0;
}

/* The fault: a pause is over as soon as it would be had it not grown. */
static void lose_patience(struct krbrelay_lane *handle, uint64_t at_now)
{
    struct krbrelay_sending end;
    uint32_t i;
    for (i = 0; i < lane_of(handle)->count; i++) {
        const struct krbrelay_progress *it = &end.progress;
        if (find_end(handle, i, &end)
            && ((it->carried < it->sent && end.again.length > AGAIN && end.again.since + AGAIN <= at_now)
                || (end.done < it->carried && end.probe.length > PROBE && end.probe.since + PROBE <= at_now)))
            load_again(handle, i, row_of(&end));
    }
}

/* The faults of what is to be done. */
static void change_command(struct krbrelay_lane *handle, uint64_t at_now, struct krbrelay_served *served)
{
    struct place *it = place_of(handle, served->place);
    struct krbrelay_command *command = &served->command;
    int is_again = command->kind == KRBRELAY_COMMAND_PUBLISH && command->number < it->left;
    struct krbrelay_sending end;
    if (plant == PLANT_NO_OPENINGS)
        command->opening = 0;
    if (plant == PLANT_SAME_LIST && served->is_moved && find_end(handle, served->place, &end)) {
        it->row.list = end.list;
        load_again(handle, served->place, it->row);
        command->kind = KRBRELAY_COMMAND_IDLE;
    }
    if ((plant == PLANT_LATE_AGAIN && is_again && at_now < it->left_at + LATE_AGAIN)
        || (plant == PLANT_LATE_PROBE && command->kind == KRBRELAY_COMMAND_PROBE && at_now < it->left_at + LATE_PROBE))
        command->kind = KRBRELAY_COMMAND_IDLE;
    if ((plant == PLANT_WINDOW_STAYS || plant == PLANT_NO_RECOVERY) && is_again && find_end(handle, served->place, &end)
        && (end.done < end.recovers) == (plant == PLANT_NO_RECOVERY))
        command->count = it->left - command->number;
    if (command->kind != KRBRELAY_COMMAND_PUBLISH || command->number + command->count <= it->left)
        return;
    it->left = command->number + command->count;
    it->left_at = at_now;
}

WRAPPED(uint32_t, krbrelay_lane_turn, struct krbrelay_lane *handle, uint64_t at_now, struct krbrelay_served *served)
{
    uint32_t is_served;
    if (plant == PLANT_NO_PATIENCE)
        lose_patience(handle, at_now);
    is_served = __real_krbrelay_lane_turn(handle, at_now, served);
    if (!is_served && tell_more(handle))
        is_served = __real_krbrelay_lane_turn(handle, at_now, served);
    if (!is_served && plant == PLANT_NO_BOUND)
        is_served = serve_beyond(handle, served);
    if (!is_served)
        return 0;
    note_turn(handle, served);
    place_of(handle, served->place)->since = 0;
    change_command(handle, at_now, served);
    return 1;
}

/* ---- What a session's end hears */

WRAPPED(enum krbrelay_answer, krbrelay_lane_confirmed, struct krbrelay_lane *handle, uint32_t place, uint64_t number,
        uint64_t offset, uint64_t at_now, uint32_t *counts)
{
    struct krbrelay_sending end;
    const struct krbrelay_progress *it = &end.progress;
    struct krbrelay_stored row;
    if (plant == PLANT_ANY_OFFSET && find_end(handle, place, &end) && offset <= it->at)
        offset = it->at + 1;
    if (plant == PLANT_ANY_CONFIRMED && find_end(handle, place, &end) && number > it->carried && number < it->sent
        && offset > it->at) {
        row = row_of(&end);
        row.carried = number;
        load_again(handle, place, row);
    }
    return __real_krbrelay_lane_confirmed(handle, place, number, offset, at_now, counts);
}

WRAPPED(enum krbrelay_answer, krbrelay_lane_receipt, struct krbrelay_lane *handle, uint32_t place,
        const struct krbrelay_receipt *receipt, const uint8_t own[KRBRELAY_HISTORY_SIZE], uint32_t own_is,
        uint64_t at_now, uint32_t *heard)
{
    struct krbrelay_receipt it = *receipt;
    struct krbrelay_sending end;
    if (plant == PLANT_NOT_HELD_BACK && it.asks == KRBRELAY_ASKS_REFUSED)
        it.asks = KRBRELAY_ASKS_MISSING;
    if (plant == PLANT_LATE_AGAIN && it.asks != KRBRELAY_ASKS_NOTHING)
        place_of(handle, place)->left = 0; /* what is asked for is no repeat */
    if (plant == PLANT_EAGER_ASKS && it.asks != KRBRELAY_ASKS_NOTHING && find_end(handle, place, &end) && end.is_asked
        && end.ask.since + ASK <= at_now)
        load_again(handle, place, row_of(&end));
    return __real_krbrelay_lane_receipt(handle, place, &it, own, own_is, at_now, heard);
}

WRAPPED(enum krbrelay_answer, krbrelay_sending_state, const struct krbrelay_sending *end, uint64_t *under_way,
        uint64_t *room, uint32_t *settled, uint32_t *stands)
{
    enum krbrelay_answer answer = __real_krbrelay_sending_state(end, under_way, room, settled, stands);
    if (plant == PLANT_ALL_STAND)
        *stands = KRBRELAY_STANDS_UNANSWERED;
    return answer;
}

/* ---- A receiver */

/* The fault: each receipt is asked for as if its pause were over. */
WRAPPED(enum krbrelay_answer, krbrelay_shard_receipt, struct krbrelay_shard *shard, uint64_t at_now, uint32_t *place,
        struct krbrelay_receipt *due)
{
    static uint64_t later;
    if (plant == PLANT_RECEIPTS_AT_ONCE)
        later += RECEIPTS_PAUSE;
    return __real_krbrelay_shard_receipt(shard, at_now + later, place, due);
}

WRAPPED(enum krbrelay_answer, krbrelay_shard_listed, struct krbrelay_shard *shard, uint64_t list, uint64_t last,
        uint32_t *is_elsewhere)
{
    struct krbrelay_reading read = { .is_open = 0 };
    *is_elsewhere = 0;
    if (plant != PLANT_WAITS_FOR_CUT || krbrelay_shard_reading(shard, &read) != KRBRELAY_OK
        || list != read.read.list || last >= read.read.offset)
        return __real_krbrelay_shard_listed(shard, list, last, is_elsewhere);
    return KRBRELAY_OK;
}

WRAPPED(enum krbrelay_answer, krbrelay_judge, const struct krbrelay_head *head, const struct krbrelay_opening *opening,
        uint32_t *judged)
{
    struct krbrelay_head of = *head;
    struct krbrelay_opening it = *opening;
    enum krbrelay_answer answer;
    if (plant == PLANT_ANY_HISTORY || (plant == PLANT_BEFORE_CLOSE && of.turn > 0))
        memcpy(it.history, of.history, sizeof it.history);
    if (plant == PLANT_BEFORE_CLOSE && of.turn > 0)
        of.closed = 1;
    answer = __real_krbrelay_judge(&of, &it, judged);
    if (plant == PLANT_ANY_TURN && *judged == KRBRELAY_JUDGED_LATER && of.turn == 0)
        *judged = KRBRELAY_JUDGED_BEGINS;
    return answer;
}
