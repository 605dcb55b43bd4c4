/* What happens to the programs and their files in each second of the disturbed minute. */
#include "world.h"

#include <stdio.h>
#include <stdlib.h>
#include <string.h>

enum {
    AWAY_FROM = 3, AWAY_UNTIL = 9,      /* seconds in which the carrier is away, where sessions are many; */
    EACH_BURST = 8, AWAY_OF_IT = 3,     /* of each eight, where there are bursts; */
    SPOILT_AWAY = 25, SPOILT = 31,      /* so that frames wait, when one of them is spoilt */
    REFUSED_FROM = 12, POISONS = 30, A_WHILE = 20,
    COPIED = 10, COPIED_WITHIN = 8, FORKED_UNTIL = 24, TAKEN_OVER = 25, RESTORED = 34, ADDED_AFTER = 36,
    MOVED_EACH = 12, MOVED = 8,
    CLOCK_FROM = 15, CLOCK_UNTIL = 50, BOUNDED_FROM = 15, BOUNDED_UNTIL = 50,
    LOST_FRAME = 20, LOST_CONFIRMATION = 30, LOST_RECEIPTS = 38, LOST_UNTIL = 43,
    SILENT_FROM = 20, SILENT_UNTIL = 50, SKEWED_FROM = 10, SKEWED_UNTIL = 58,
    LATER_BY = 3, UNEVEN = 10000, HOURS = 3 * 3600, ALWAYS = 1000, STATEMENT = 240
};
#define NEVER UINT64_MAX

static int is_between(unsigned from, unsigned until)
{
    return world.second >= from && world.second < until;
}

/* Whether the second has this event of the kind. */
static int is_time(enum kind kind, uint64_t second)
{
    return has(kind) && world.second == second;
}

/* ---- Chances of this second */

/* The carrier fails at times. Where other kinds need that it is away, it is at their seconds. */
static unsigned chance_of_carrier(void)
{
    unsigned chance_now = has(KIND_CARRIER) && drawn(6) == 0 ? drawn(2) ? ALWAYS : drawn(ALWAYS) : 0;
    if ((has(KIND_ROW_GONE) || has(KIND_ROW_SPOILT)) && is_between(SPOILT_AWAY, SPOILT + 1))
        return ALWAYS;
    if (!has(KIND_CARRIER))
        return 0;
    if (has(KIND_MANY))
        return is_between(AWAY_FROM, AWAY_UNTIL) ? ALWAYS : 0;
    if (has(KIND_BURSTS) && world.second % EACH_BURST < AWAY_OF_IT)
        return ALWAYS;
    if (has(KIND_RESTORED) && is_between(RESTORED, RESTORED + 2))
        return ALWAYS; /* no receipts reach the sender that begins */
    return chance_now;
}

static void draw_chances(void)
{
    faults.lost = has(KIND_LOST) && drawn(4) == 0 ? drawn(600) : 0;
    faults.twice = has(KIND_LOST) ? 30 : 0;
    faults.carrier = chance_of_carrier();
    faults.slow = has(KIND_SLOW) && drawn(4) == 0 ? 5 : 0;
    faults.database = has(KIND_DATABASE) && drawn(4) == 0 ? 1 + drawn(20) : 0;
    faults.unknown = has(KIND_STORE_UNKNOWN) || has(KIND_OUTBOX_UNKNOWN) ? 30 : 0;
    faults.uncommitted = has(KIND_UNCOMMITTED) && drawn(5) == 0 ? 800 : 0;
    faults.memory = has(KIND_MEMORY) && drawn(3) == 0 ? 100 : 0;
    faults.killed = has(KIND_KILLED) && drawn(5) == 0 ? 20 : 0;
    faults.slow_effects = has(KIND_SLOW_EFFECTS) ? 400 : 0;
    faults.loses_frame = is_time(KIND_CALM, LOST_FRAME);
    faults.loses_confirmation = is_time(KIND_CALM, LOST_CONFIRMATION);
    faults.loses_receipts = has(KIND_CALM) && is_between(LOST_RECEIPTS, LOST_UNTIL);
    faults.is_silent = has(KIND_SILENT) && is_between(SILENT_FROM, SILENT_UNTIL);
    if (faults.is_silent)
        faults.carrier_at = now;
}

/* For some seconds no key of a stream can be read, or no ticket be had. */
static void take_keys(void)
{
    if (has(KIND_KEYS) && drawn(3) == 0)
        faults.has_no_keys[drawn(2)] = drawn(2) == 0;
    if (has(KIND_KEYS) && has(KIND_FORKED) && is_between(FORKED - 1, FORKED + 1))
        faults.has_no_keys[1] = 1;
    if (has(KIND_KDC) && drawn(3) == 0)
        faults.has_no_tickets = drawn(2) == 0;
}

/* ---- One statement, or one table, fails for a while */

static void strike(const char *statement, int of_receivers, unsigned times, uint64_t until)
{
    static char text[STATEMENT];
    (void)snprintf(text, sizeof text, "%s", statement);
    faults.statement = text;
    faults.of_receivers = of_receivers;
    faults.times = text[0] != 0 ? times : 0;
    faults.from = now + drawn(1000) * MILLISECOND;
    faults.until = until == NEVER ? until : faults.from + until;
}

static void strike_statement(void)
{
    static const int codes[] = { SQLITE_IOERR, SQLITE_NOMEM, SQLITE_FULL };
    static const char *const tables[] = { "SELECT", " FROM frame", " FROM text", " FROM session" };
    int of_receivers = drawn(4) == 0;
    const char *statement = drawn(3) ? statements_one(of_receivers, drawn(1000)) : tables[drawn(4)];
    unsigned times = drawn(2) ? 1 : 1 + drawn(200);
    faults.is_unreadable = 0;
    faults.pass = drawn(3) ? 0 : drawn(40);
    faults.code = codes[drawn(3)];
    strike(statement, of_receivers, times, drawn(2) ? drawn(1500) * MILLISECOND : NEVER);
}

/* A statement fails also where the world has just acted. */
static void strike_some(void)
{
    if (faults.times > 0 && now >= faults.until)
        faults.times = 0;
    if (has(KIND_STATEMENT)
        && ((faults.times == 0 && drawn(2) == 0) || world.second == FORKED || world.second == RESTORED))
        strike_statement();
    if (!has(KIND_UNREADABLE) || faults.times > 0 || drawn(2) != 0)
        return;
    faults.is_unreadable = 1;
    faults.pass = 0;
    faults.code = drawn(2) ? SQLITE_IOERR : SQLITE_NOMEM;
    strike(" FROM frame", 0, UINT32_MAX, drawn(400) * MILLISECOND);
}

/* ---- Programs */

static void kill_one(int party)
{
    if (drawn(6) != 0 || !world.is_up[party])
        return;
    happened(KIND_KILLED, 1);
    ends_stop(party, (int)drawn(2), now + drawn(3000) * MILLISECOND);
}

/* It is stopped, and wakes. */
static void hold_one(int party)
{
    if (!world.is_up[party])
        return;
    happened(KIND_STOPPED, 1);
    world.stops++;
    if (is_sender(party))
        faults.carrier_at = now; /* it hears of no confirmation */
    ends_hold(party, now + drawn(6000) * MILLISECOND);
}

/* They may run again at once, or come back after some seconds. */
static void stop_receivers(unsigned seconds)
{
    int party;
    for (party = RECEIVER; party < PARTIES; party++)
        if (world.is_up[party])
            ends_stop(party, 1, seconds > 0 ? now + seconds * SECOND + drawn(1000) * MILLISECOND : now);
}

static void stop_programs(void)
{
    int party;
    if (has(KIND_KILLED)) {
        kill_one(SENDER);
        kill_one(RECEIVER + (int)drawn(RECEIVERS));
    }
    if (has(KIND_STOPPED) && drawn(2) == 0)
        hold_one(SENDER + (int)drawn(PARTIES - SENDER));
    if (has(KIND_FORKED) && has(KIND_KILLED) && is_between(FORKED, FORKED_UNTIL))
        stop_receivers(4); /* so receipts of a fork come late */
    if (!is_time(KIND_BOUNDED, BOUNDED_FROM) && !is_time(KIND_BOUNDED, BOUNDED_UNTIL))
        return;
    stop_receivers(0); /* with a bound, none runs for a while, and the outbox becomes full */
    for (party = RECEIVER; party < PARTIES; party++)
        world.may_run[party] = world.second == BOUNDED_UNTIL;
}

/* ---- The carrier's shards and receipts */

static void harm_carrier(void)
{
    unsigned name;
    if (has(KIND_DELETED) && world.second > 5 && drawn(25) == 0)
        frames_delete(drawn(SHARDS));
    if (has(KIND_CUT) && world.second > 5 && drawn(10) == 0)
        frames_cut(drawn(SHARDS), 1 + drawn(40));
    if (!has(KIND_PURGED) || drawn(20) != 0)
        return;
    frames_purge();
    for (name = 0; name < world.names; name++)
        if (!world.name[name].was_stopped)
            world.name[name].is_forbidden = 0; /* the next receipt is the first that says it */
}

/* ---- Copies of the outbox */

/* How far the sessions of each name are, and whether frames of them are there. */
struct known { sqlite3_int64 next[MOST_NAMES]; char has_frames[MOST_NAMES]; };
static struct known of_copy;

static int take_known(void *given, int count, char **values, char **names)
{
    struct known *known = given;
    unsigned name = name_of(values[0]);
    if (name < world.names && values[1] != NULL)
        known->next[name] = atoll(values[1]);
    else if (name < world.names)
        known->has_frames[name] = 1;
    return 0;
}

static void find_known(struct known *known)
{
    memset(known, 0, sizeof *known);
    (void)box_run(&world.boxes[0], "SELECT name, next FROM session UNION ALL SELECT DISTINCT session, NULL FROM frame",
                  take_known, known); /* it can be read */
}

/* A session that went on since the copy, of which all that left took effect and has its receipt, has to be stopped before
 * a text of the copy takes effect. */
static void restore_outbox(void)
{
    struct known known;
    unsigned i;
    happened(KIND_RESTORED, 1);
    find_known(&known);
    ends_stop(SENDER, 1, now);
    for (i = 0; i < world.names; i++) {
        struct name *it = &world.name[i];
        if (known.next[i] <= of_copy.next[i] && !is_stream(i))
            continue;
        it->has_advanced = it->is_struck = 1;
        it->is_forbidden |= !known.has_frames[i] && frames_receipts_kept(i) > 0 && !is_stream(i);
        it->forbidden_from = it->serials;
    }
    box_close(&world.boxes[0]);
    box_copy(&world.boxes[0], &world.saved);
    box_close(&world.saved);
}

static void start_second(void)
{
    world.may_run[SENDER_2] = 1;
    world.resumes[SENDER_2] = now;
}

static void use_copies(void)
{
    unsigned i;
    if (is_time(KIND_RESTORED, COPIED + world.seed % COPIED_WITHIN)) {
        box_copy(&world.saved, &world.boxes[0]);
        find_known(&of_copy);
    }
    if (is_time(KIND_RESTORED, RESTORED) && world.saved.is_used)
        restore_outbox();
    if (is_time(KIND_FORKED, FORKED)) {
        happened(KIND_FORKED, 1);
        box_copy(&world.boxes[1], &world.boxes[0]);
        start_second();
        for (i = 0; i < world.names; i++)
            world.name[i].is_struck = 1;
    }
    if (is_time(KIND_TAKEN_OVER, TAKEN_OVER)) {
        happened(KIND_TAKEN_OVER, 1);
        start_second();
    }
}

/* ---- The file of sessions */

static void change_sessions(void)
{
    int moves = has(KIND_MOVED) && world.second % MOVED_EACH == MOVED
                && !(has(KIND_RESTORED) && world.second >= RESTORED);
    int adds = has(KIND_ADDED) && world.second > ADDED_AFTER && drawn(8) == 0;
    unsigned i;
    for (i = 0; moves && world.second == MOVED && i < world.names; i++)
        world.name[i].shard ^= drawn(2);
    if (moves)
        world.name[drawn(world.names)].shard ^= 1;
    world.others += adds != 0;
    happened(KIND_MOVED, moves != 0);
    happened(KIND_ADDED, adds != 0);
    if (!moves && !adds)
        return;
    ends_write_sessions();
    ends_use_sessions(moves ? UNEVEN : 0);
}

/* ---- A row of the outbox */

static void spoil_row(enum kind kind, const char *change)
{
    struct known known;
    char sql[STATEMENT];
    unsigned name = drawn(world.names), tries;
    find_known(&known);
    for (tries = 0; tries < world.names && !known.has_frames[name]; tries++)
        name = (name + 1) % world.names;
    (void)snprintf(sql, sizeof sql, "%s WHERE session = 's%u' AND number = (SELECT (min(number) + max(number)) / 2"
                   " FROM frame WHERE session = 's%u')", change, name, name);
    if (!known.has_frames[name] || box_run(&world.boxes[0], sql, NULL, NULL) != SQLITE_OK)
        return;
    world.name[name].is_struck = 1;
    happened(kind, 1);
}

static void spoil_rows(void)
{
    unsigned i;
    if (is_time(KIND_ROW_GONE, SPOILT))
        spoil_row(KIND_ROW_GONE, "DELETE FROM frame");
    else if (is_time(KIND_ROW_SPOILT, SPOILT))
        spoil_row(KIND_ROW_SPOILT, "UPDATE frame SET frame = zeroblob(length(frame))");
    else
        return;
    for (i = 0; has(KIND_DELETED) && i < SHARDS; i++)
        frames_delete(i);
}

/* ---- Effects, clocks */

/* Where a text is refused for good its shard waits, unless it is put aside. */
static void poison(unsigned name, unsigned count, int is_error, uint64_t until)
{
    unsigned i;
    for (i = count; i > 0 && poisons.count < MOST_POISONS; i--)
        poisons.at[poisons.count++] = (struct poison){ name, world.name[name].serials + i - 1, is_error, until };
    for (i = 0; i < world.names && until == NEVER; i++)
        if (i == name || (!has(KIND_ASIDE) && (has(KIND_MOVED) || world.name[i].shard == world.name[name].shard)))
            world.name[i].is_struck = 1;
}

static void refuse_texts(void)
{
    if (is_time(KIND_REFUSED_A_WHILE, REFUSED_FROM))
        poison(drawn(world.names), 1, (int)drawn(2), now + A_WHILE * SECOND);
    if (is_time(KIND_REFUSED, REFUSED_FROM))
        poison(drawn(world.names), 1, (int)drawn(2), NEVER);
    if (is_time(KIND_REFUSED_MANY, REFUSED_FROM))
        poison(drawn(world.names), POISONS, 0, NEVER);
}

/* Receivers refuse all frames until their clocks are right; and what is sealed by a wrong clock, until it is right. */
static void set_clocks(void)
{
    int is_skewed = has(KIND_SKEWED) && is_between(SKEWED_FROM, SKEWED_UNTIL), party;
    int is_wrong = has(KIND_CLOCK) && is_between(CLOCK_FROM, CLOCK_UNTIL);
    unsigned i;
    for (party = SENDER; party < PARTIES; party++)
        faults.clock[party] = (is_sender(party) ? is_wrong && party == SENDER : is_skewed) ? HOURS : 0;
    happened(KIND_SKEWED, is_skewed != 0);
    happened(KIND_CLOCK, is_wrong != 0);
    if (is_skewed)
        faults.carrier_at = now;
    for (i = 0; is_time(KIND_CLOCK, CLOCK_FROM) && i < world.names; i++)
        world.name[i].is_struck = 1;
}

/* ---- */

/* Effects that are slow stay so. What was counted and when frames couldn't leave last stays known. */
static void end_faults(void)
{
    faults = (struct faults){ .slow_effects = faults.slow_effects, .carrier_at = faults.carrier_at,
                              .injected = faults.injected, .of_stores = faults.of_stores, .is_over = 1 };
}

void events_second(void)
{
    if (is_time(KIND_LATER, world.disturbed + LATER_BY))
        ends_use_sessions(0); /* which has the line that was missing */
    if (world.second == world.disturbed)
        end_faults();
    if (world.second >= world.disturbed)
        return;
    draw_chances();
    take_keys();
    strike_some();
    stop_programs();
    harm_carrier();
    use_copies();
    change_sessions();
    spoil_rows();
    refuse_texts();
    set_clocks();
}
