/* Does what krb_sender says of each session: publishes frames, and a session's last one again. A session whose frame the
 * carrier won't have is stopped, and the others go on. */
#include "clock.h"
#include "log.h"
#include "sender.h"
#include "text.h"

enum {
    COUNTED = 512,  /* confirmations that are taken at once */
    STORED = 512,   /* frames of a session that are stored, and not carried, at most: one sync stores many. How
                     * many of them leave is krb_sender's */
    SERVED = 256,   /* services of a shard in one turn, */
    LEFT = 1024,    /* and frames that leave in one */
    UNLISTED = 20,  /* milliseconds until a shard whose list can't be had is asked for again, */
    AWAY = 10000    /* and after which that is told */
};

/* ---- What is counted */

/* Whether its frames leave. */
static int leaves(const struct sending *it)
{
    return it->stopped_from != 1 && !it->waits_to_open && (it->begun == NULL || it->is_stored);
}

static void count(uint64_t *of_lane, uint64_t *of_all, uint64_t *of, uint64_t now)
{
    *of_lane = *of_lane - *of + now;
    *of_all = *of_all - *of + now;
    *of = now;
}

int turns_has(const struct sending *it, enum krbrelay_answer answer)
{
    if (answer != KRBRELAY_OK)
        log_fact(LEVEL_ERROR, "progress_unknown", field_text("session", it->of.name),
                 field_number("next", it->end.progress.next), field_number("sealed", it->sealed));
    return answer == KRBRELAY_OK;
}

enum answer turns_look(struct sender *s, struct sending *it)
{
    return turns_has(it, krbrelay_lane_session(&s->lanes[it->lane].ends, it->place, &it->end))
           ? ANSWER_DONE : ANSWER_FAULT;
}

/* What is counted of a session is counted anew. */
static void count_anew(struct sender *s, struct sending *it)
{
    const struct krbrelay_progress *progress = &it->end.progress;
    struct lane *lane = &s->lanes[it->lane];
    uint64_t stored, undone, known;
    if (turns_look(s, it) != ANSWER_DONE)
        return; /* never: each session has its place */
    s->unopened -= it->waits_to_open && progress->sent > 0;
    it->waits_to_open = it->waits_to_open && progress->sent == 0; /* a receipt says that its opening was taken before */
    stored = progress->next - progress->carried;
    known = it->answered_below > progress->carried ? it->answered_below : progress->carried;
    undone = it->stopped_from != 1 ? progress->next - it->end.done : 0;
    it->room = it->stopped_from == 1 || it->is_deaf || stored > STORED ? 0 : STORED - stored;
    lane->undone = lane->undone - it->undone + undone;
    it->undone = undone;
    count(&lane->uncarried, &s->uncarried, &it->uncarried, leaves(it) ? stored : 0);
    count(&lane->awaited, &s->awaited, &it->awaited, leaves(it) && progress->sent > known ? progress->sent - known : 0);
    count(&lane->unreceipted, &s->unreceipted, &it->unreceipted,
          it->stopped_from != 1 ? progress->carried - it->end.done : 0);
}

void turns_note(struct sender *s, struct sending *it)
{
    count_anew(s, it);
    if (it->has_texts && it->room >= STORED / 2)
        list_add(&s->sealable, it, &it->is_sealable);
}

void turns_stop(struct sender *s, struct sending *it)
{
    if (it->stopped_from != 1)
        s->untold.at[s->untold.count++] = it;
    it->stopped_from = 1;
    (void)turns_has(it, krbrelay_lane_stop(&s->lanes[it->lane].ends, it->place)); /* else it is told */
    s->unopened -= it->waits_to_open != 0;
    it->waits_to_open = 0;
    count_anew(s, it); /* there is nothing to do any more */
}

/* ---- What leaves */

/* What the carrier answered to a frame that it didn't take. Any other than ANSWER_REFUSED may pass: the frame
 * isn't confirmed then, and leaves again. */
static void note_untaken(struct sender *s, struct sending *it, enum answer answer, uint64_t number)
{
    if (answer != ANSWER_REFUSED)
        return;
    write_cut(it->reason, sizeof it->reason, "the carrier doesn't take frame %llu: is it longer"
              " than its Maximum Payload?", (unsigned long long)number);
    turns_stop(s, it);
}

static enum answer publish(struct sender *s, struct sending *it, uint64_t number, const uint8_t *frame, size_t len)
{
    enum answer answer = s->carrier->publish(s->carrier, it->of.shard, it->of.name, it->tag, number, frame, len);
    s->published += answer == ANSWER_DONE;
    if (answer != ANSWER_DONE)
        note_untaken(s, it, answer, number);
    return answer;
}

/* Publishes a session's opening, which is made anew each time. */
static enum answer publish_opening(struct sender *s, struct sending *it)
{
    size_t len = 0;
    if (sender_note_before(s, it) != ANSWER_DONE
        || tickets_make_opening(s->tickets, s->kerberos, &it->begun->opened, s->opening, OPENING, &len) != 0)
        return ANSWER_FAULT;
    return publish(s, it, 0, s->opening, len);
}

/* A frame without a receipt isn't in the outbox. Where another process has deleted it, the session is loaded again; else
 * it is lost, and the session is stopped. */
static void note_missing(struct sender *s, struct sending *it, uint64_t number)
{
    struct outbox_progress row;
    if (outbox_load(&s->outbox, &it->of, &row) != ANSWER_DONE || (row.done > number
        && sender_load(s, it) != ANSWER_DONE))
        return; /* which is reported: the frames leave again after their pause */
    if (row.done > number)
        return;
    write_cut(it->reason, sizeof it->reason, "frame %llu isn't in the outbox any more, and no receipt says that it took"
              " effect: was it deleted, or the file mended? The session needs a new key",
              (unsigned long long)number);
    turns_stop(s, it);
}

/* Publishes frames of the outbox from a number on. What can't be read now leaves after its pause, as what the carrier
 * loses. */
static void publish_frames(struct sender *s, struct sending *it, uint64_t from, uint64_t limit)
{
    const uint8_t *frame;
    uint64_t number = 0, end = from + limit;
    size_t len;
    enum answer answer = ANSWER_DONE, row = ANSWER_FOUND;
    if (it->begun != NULL && from == 0 && end > 0)
        answer = publish_opening(s, it);
    from += it->begun != NULL && from == 0;
    outbox_select_frames(&s->outbox, it->of.name, from, (unsigned)limit);
    while (answer == ANSWER_DONE && row == ANSWER_FOUND && from < end) {
        row = outbox_next_frame(&s->outbox, &number, &frame, &len);
        if (row == ANSWER_FOUND && number != from)
            row = ANSWER_DONE;
        if (row == ANSWER_FOUND)
            answer = publish(s, it, from++, frame, len);
    }
    outbox_end_frames(&s->outbox);
    if (row == ANSWER_FAULT)
        log_fact(LEVEL_ERROR, "frame_unread", field_text("session", it->of.name), field_number("number", from),
                 field_text("text", "the outbox has it, and can't be read there: tried again"));
    if (row == ANSWER_DONE)
        note_missing(s, it, from);
}

/* Does what the lane says; how many frames left. */
static uint64_t perform(struct sender *s, struct sending *it, const struct krbrelay_command *command)
{
    switch (command->kind) {
    case KRBRELAY_COMMAND_PUBLISH:
        s->again += command->number < it->published_below ? it->published_below - command->number : 0;
        it->published_below = command->number + command->count > it->published_below ? command->number + command->count : it->published_below;
        it->answered_below = command->number < it->answered_below ? command->number : it->answered_below;
        publish_frames(s, it, command->number, command->count);
        return command->count;
    case KRBRELAY_COMMAND_PROBE:
        s->again++;
        log_fact(LEVEL_WARNING, "receipts_missing", field_text("session", it->of.name),
                 field_number("shard", it->of.shard), field_number("done", it->end.done),
                 field_number("carried", it->end.progress.carried),
                 field_text("text", "no receipt came: the last frame is published again"));
        if (command->opening && it->begun != NULL && command->number > 0)
            (void)publish_opening(s, it); /* what isn't taken is probed again */
        publish_frames(s, it, command->number, 1);
        return 1;
    default:
        return 0; /* the lane knows when it is looked at again */
    }
}

/* ---- Whose turn it is */

/* A session's opening leaves in its next turn, but where there is no ticket, or the session of its stream before it isn't
 * carried, whose close has to come before. Nothing of a session whose row isn't stored leaves. */
static void release(struct sender *s, struct sending *it)
{
    int is_held = !tickets_have(s->tickets) || sender_is_after(s, it);
    s->unopened += (size_t)(is_held != 0) - (size_t)(it->waits_to_open != 0);
    it->waits_to_open = is_held;
    if (!is_held && it->is_stored)
        (void)turns_has(it, krbrelay_lane_release(&s->lanes[it->lane].ends, it->place)); /* else it is told */
    count_anew(s, it);
}

/* Its shard had another list before: all that isn't done leaves again. */
static void note_moved(struct sender *s, struct sending *it)
{
    list_add(&s->dirty, it, &it->is_dirty);
    if (it->end.list != 0 || it->stored.shard != (int32_t)it->of.shard)
        log_fact(LEVEL_WARNING, "session_elsewhere", field_text("session", it->of.name),
                 field_number("shard", it->of.shard),
                 field_text("text", "its shard is another list than before: what has no receipt is"
                                    " published there"));
}

/* One service of a session: how many frames left. */
static uint64_t serve(struct sender *s, struct sending *it, const struct krbrelay_served *served)
{
    uint64_t left;
    if (served->is_moved)
        note_moved(s, it);
    if (served->command.kind == KRBRELAY_COMMAND_HELD) {
        release(s, it);
        return 0;
    }
    left = perform(s, it, &served->command);
    count_anew(s, it);
    return left;
}

/* Which list each shard is that has something to do. Its lane has all its sessions hear of another one. */
static void find_list(struct sender *s, struct lane *lane)
{
    uint64_t list = 0;
    int has_list = s->carrier->make(s->carrier, lane->shard, &list) == ANSWER_DONE && list != 0;
    lane->unlisted = has_list ? 0 : lane->unlisted != 0 ? lane->unlisted : milliseconds();
    if (krbrelay_lane_listed(&lane->ends, (uint32_t)has_list, list) == KRBRELAY_OK)
        lane->has_list = has_list;
    else
        log_system("out_of_memory", "sender"); /* the next round has it */
}

int turns_is_shard_away(const struct sender *s, const struct sending *it)
{
    uint64_t since = s->lanes[it->lane].unlisted;
    return since != 0 && milliseconds() - since >= AWAY;
}

/* Some sessions of a shard, in their turn. The lane may have a session that couldn't be loaded: it is stopped. */
static uint64_t serve_lane(struct sender *s, struct lane *lane)
{
    struct krbrelay_served served;
    uint64_t now = milliseconds(), left = 0;
    unsigned i;
    for (i = 0; i < SERVED && left < LEFT && krbrelay_lane_turn(&lane->ends, now, &served) == 1; i++)
        if (served.place < lane->members.count)
            left += serve(s, lane->members.at[served.place], &served);
    return left;
}

int turns_all(struct sender *s)
{
    uint64_t left = 0;
    size_t i;
    for (i = 0; i < s->lane_count; i++) {
        struct lane *lane = &s->lanes[(s->first_lane + i) % s->lane_count];
        if (lane->undone == 0)
            continue;
        find_list(s, lane);
        if (left < LEFT)
            left += serve_lane(s, lane);
    }
    s->first_lane += s->lane_count > 0; /* another one is the first next time */
    return left >= LEFT;
}

/* A lane without sessions has no turn before; and where no session has anything to do, its last one may be long ago. */
enum krbrelay_answer turns_set_time(struct sender *s, struct lane *lane)
{
    enum krbrelay_answer answer = KRBRELAY_OK;
    if (lane->members.count == 0)
        answer = krbrelay_lane_listed(&lane->ends, 0, 0); /* makes the lane */
    if (answer == KRBRELAY_OK && lane->undone == 0)
        (void)serve_lane(s, lane); /* nothing leaves */
    return answer;
}

/* A shard whose list can't be had is asked for again soon. */
uint64_t turns_next_time(struct sender *s)
{
    uint64_t next = UINT64_MAX, at;
    size_t i;
    for (i = 0; i < s->lane_count; i++) {
        struct lane *lane = &s->lanes[i];
        at = lane->undone == 0 ? UINT64_MAX : lane->has_list ? krbrelay_lane_next_time(&lane->ends) : milliseconds() + UNLISTED;
        next = at < next ? at : next;
    }
    return next;
}

/* ---- Confirmations */

/* The session of a confirmation, or NULL: it is of sessions that were forgotten. */
static struct sending *of_tag(const struct sender *s, uint32_t tag)
{
    uint32_t place = tag - s->first_tag;
    return place < s->all.count ? s->all.at[place] : NULL;
}

/* The next session of the stream may have waited for this one. */
static void note_next(struct sender *s, const struct sending *it)
{
    struct sending *now = it->stream != NULL ? it->stream->now : NULL;
    if (now != NULL && now != it && now->waits_to_open && it->end.progress.carried == it->end.progress.next)
        release(s, now);
}

/* Frames of a session are carried. */
static void note_carried(struct sender *s, struct sending *it)
{
    list_add(&s->dirty, it, &it->is_dirty);
    turns_note(s, it);
    note_next(s, it);
}

/* The carrier has the frame: whether that counts. It doesn't where the shard lost frames that this session has as
 * carried, until the shard is as long again; but the carrier has answered. */
static int take_confirmed(struct sender *s, struct sending *it, const struct confirmed *of, uint64_t now)
{
    uint32_t counts = 0;
    if (!turns_has(it, krbrelay_lane_confirmed(&s->lanes[it->lane].ends, it->place, of->number, of->offset, now, &counts)))
        return 0;
    if (of->number >= it->answered_below)
        it->answered_below = of->number + 1;
    if (!counts)
        count_anew(s, it);
    return (int)counts;
}

/* Confirmations of a session come one after another: it is noted once for all of them. */
size_t turns_count_carried(struct sender *s)
{
    struct confirmed list[COUNTED];
    struct sending *last = NULL;
    size_t rose = 0, i, found = 0;
    uint64_t now;
    if (s->carrier->confirmed(s->carrier, list, COUNTED, &found) != ANSWER_DONE)
        return 0; /* which is reported: the frames leave again */
    now = milliseconds();
    for (i = 0; i < found; i++) {
        struct sending *it = of_tag(s, list[i].tag);
        if (it == NULL || !take_confirmed(s, it, &list[i], now))
            continue;
        if (last != NULL && last != it)
            note_carried(s, last);
        last = it;
        rose++;
    }
    if (last != NULL)
        note_carried(s, last);
    return found == COUNTED ? rose + turns_count_carried(s) : rose;
}
