/* What has to hold of a run: of each effect, each second, and at the end. */
#include "world.h"

#include <krbrelay.h>

#include <stdarg.h>
#include <stdio.h>
#include <stdlib.h>
#include <string.h>

enum {
    TEXT = 160, SQL = 220,
    FRAMES_OF_A_TEXT = 30, FRAMES_OF_A_SECOND = 40, FRAMES = 200, /* so many may be published at most */
    EFFECTS = 4, EFFECTS_OF_A_FAULT = 2,                          /* so often may an effect be run */
    CALLS = 40000, SPINNING = 10,                                 /* of SQL in a second; seconds of a run that is ended */
    VAIN_LOOKS = 20,                                              /* for receipts in a second */
    UNHEALTHY = 12, UNSEEN = 5,                                   /* seconds */
    LOOKED_EACH = 5, TRIES = 3,
    UNDER_WAY = 2048, PROMPT = 12,                                /* frames of a shard; seconds of a text in a calm run, .. */
    TIMES = 9, AGAIN = 3, MOST_AGAIN = 24,                        /* .. how often a frame leaves, and most of them; */
    RECEIPTS = 12, OPENED = 4,                                               /* of a session in a second; */
    REFUSED_FROM = 20, REFUSED_UNTIL = 58, CALM_FROM = 5, CALM_UNTIL = 20 /* what has to be said in these seconds */
};
#define MOST_BYTES ((size_t)64 << 20)

#define RULE_TEXT(name) #name,
static const char *const rule_texts[] = { RULES(RULE_TEXT) };

static char broken[RULE_COUNT][TEXT];
static unsigned unseen, spinning;

void rule_broken(enum rule rule, const char *form, ...)
{
    va_list values;
    int len;
    if (broken[rule][0] != 0)
        return;
    len = snprintf(broken[rule], TEXT, "%s at %llu s: ", rule_texts[rule], (unsigned long long)world.second);
    va_start(values, form);
    (void)vsnprintf(broken[rule] + len, TEXT - (size_t)len, form, values); /* a long one is cut */
    va_end(values);
}

unsigned rules_print(void)
{
    unsigned i, count = 0;
    for (i = 0; i < RULE_COUNT; i++)
        if (broken[i][0] != 0) {
            count++;
            printf("%s\n", broken[i]);
        }
    return count;
}

/* ---- What took effect */

/* Texts of two outboxes have an order in each alone. */
static int has_order(void)
{
    return !world.boxes[1].is_used;
}

static void see(enum fate fate, char **values)
{
    unsigned name = name_of(values[2][0] != 0 ? values[2] : values[1]);
    unsigned serial = (unsigned)strtoul(values[3], NULL, 16);
    struct name *it = &world.name[name < world.names ? name : 0];
    if (name >= world.names || strlen(values[3]) != 4 || serial >= it->serials) {
        rule_broken(RULE_CHANGED, "session %s has an effect of no text", values[1]);
        return;
    }
    if (it->fate[serial] != NOTHING_YET)
        rule_broken(RULE_DOUBLED, "s%u text %u took effect twice", name, serial);
    it->fate[serial] = (unsigned char)fate;
    happened(KIND_ASIDE, fate == PUT_ASIDE);
    if (fate == PUT_ASIDE && seen.runs[name][serial] < TRIES)
        rule_broken(RULE_ASIDE_EARLY, "s%u text %u was put aside after %u tries", name, serial, seen.runs[name][serial]);
    it->took_in[serial] = digest_of(values[1], strlen(values[1]));
    if (fate != TOOK_EFFECT)
        return;
    if (has_order() && serial < it->last)
        rule_broken(RULE_OVERTAKEN, "s%u text %u took effect after text %u", name, serial, it->last);
    if (it->is_forbidden && serial >= it->forbidden_from)
        rule_broken(RULE_LEFT_OUT, "s%u text %u of a restored outbox took effect, %s", name, serial,
                    it->was_stopped ? "after the session was stopped" : "and nobody has said that the outbox is older");
    it->last = serial > it->last ? serial : it->last;
}

/* A table of a shard's store: what its rows are the fate of, and the last one that was seen. */
struct table { enum fate fate; sqlite3_int64 last; };

static int take_row(void *given, int count, char **values, char **names)
{
    struct table *table = given;
    table->last = atoll(values[0]);
    see(table->fate, values);
    return 0;
}

static void look_at_table(sqlite3 *db, const char *name, struct table *table)
{
    char sql[SQL];
    (void)snprintf(sql, sizeof sql, "SELECT id, session, stream, hex(text) FROM %s WHERE id > %lld ORDER BY id", name,
                   (long long)table->last);
    (void)sqlite3_exec(db, sql, take_row, table, NULL); /* the table may not be there yet */
}

static int take_elsewhere(void *given, int count, char **values, char **names)
{
    rule_broken(RULE_ELSEWHERE, "session %s goes on in another shard than its own", values[0]);
    return 0;
}

/* A shard's store, or that of all; NULL if there is none yet. */
static sqlite3 *store_of(unsigned shard)
{
    static sqlite3 *stores[SHARDS];
    char file[TEXT], path[PATHS];
    (void)snprintf(file, sizeof file, has_one_store() ? "store.db" : "store-%u.db", shard);
    path_of(path, file);
    if (stores[shard] == NULL && sqlite3_open_v2(path, &stores[shard], SQLITE_OPEN_READONLY, NULL) != SQLITE_OK) {
        (void)sqlite3_close(stores[shard]); /* no statement is left */
        stores[shard] = NULL;
    }
    return stores[shard];
}

static void look_at_effects(void)
{
    static struct table asides[SHARDS] = { { PUT_ASIDE, 0 }, { PUT_ASIDE, 0 } };
    static struct table effects[SHARDS] = { { TOOK_EFFECT, 0 }, { TOOK_EFFECT, 0 } };
    unsigned i;
    for (i = 0; i < (has_one_store() ? 1u : (unsigned)SHARDS); i++) {
        sqlite3 *db = store_of(i);
        if (db == NULL)
            continue;
        look_at_table(db, "aside", &asides[i]);
        look_at_table(db, "effect", &effects[i]);
        if (has(KIND_COPIED))
            (void)sqlite3_exec(db, "SELECT name FROM session JOIN opened USING (name) WHERE session.shard !="
                               " opened.shard", take_elsewhere, NULL, NULL); /* the tables may not be there yet */
    }
}

/* ---- What an outbox has, and says */

static int by_id(const void *one, const void *other)
{
    sqlite3_int64 id = ((const struct mark *)one)->id, other_id = ((const struct mark *)other)->id;
    return (id > other_id) - (id < other_id);
}

/* Of a name rising texts have rising rows. */
static int take_text(void *given, int count, char **values, char **names)
{
    const struct box *of = given;
    unsigned name = name_of(values[0]);
    const struct mark sought = { .id = atoll(values[1]) }, *found = NULL;
    if (name < world.names && of->count[name] > 0)
        found = bsearch(&sought, of->marks[name], of->count[name], sizeof sought, by_id);
    if (found != NULL) {
        world.name[name].waits[found->serial] = 1;
        world.name[name].sealed_in[found->serial] = digest_of(values[0], strlen(values[0]));
    }
    return 0;
}

static int take_said(void *given, int count, char **values, char **names)
{
    unsigned name = name_of(values[0]);
    struct name *it = &world.name[name < world.names ? name : 0];
    if (name >= world.names)
        return 0;
    it->stands = (unsigned)strtoul(values[2], NULL, 10);
    it->said |= values[1] != NULL ? SAID_TO_BE_STOPPED : SAID_TO_STAND;
    if (values[1] == NULL || (strstr(values[1], "this outbox") == NULL && strstr(values[1], "older") == NULL))
        return 0;
    it->was_stopped = 1;
    if (!it->is_struck && !has(KIND_RESTORED))
        rule_broken(RULE_UNTRUE, "s%u is stopped as one of an older or another outbox, and there is none", name);
    return 0;
}

/* Each text is in its outbox, or has met its fate. Answers how many of them had none. */
static unsigned look_at_texts(const struct box *of, unsigned name)
{
    const struct name *it = &world.name[name];
    int is_prompt = is_calm() && !has(KIND_SILENT) && !has(KIND_SKEWED);
    unsigned i, undone = 0;
    for (i = 0; i < of->count[name]; i++) {
        unsigned serial = of->marks[name][i].serial;
        int is_done = it->fate[serial] != NOTHING_YET;
        if (!is_done && !it->waits[serial])
            rule_broken(RULE_LOST, "s%u text %u is in no outbox and had no effect", name, serial);
        if (is_done && undone > 0 && has_order() && !it->has_advanced)
            rule_broken(RULE_OVERTAKEN, "s%u text %u had its outcome before an older one", name, serial);
        undone += !is_done;
        if (!is_done && is_prompt && world.second > (unsigned)it->put_at[serial] + PROMPT)
            rule_broken(RULE_LATE, "s%u text %u had no effect within %d seconds of a calm run", name, serial, PROMPT);
    }
    return undone;
}

/* A stream's session begins once all of the session before took effect: also where there are two outboxes. */
static void look_at_sessions(const struct box *of, unsigned name)
{
    const struct name *it = &world.name[name];
    uint64_t before = 0;
    unsigned i;
    for (i = 0; i < of->count[name]; i++) {
        unsigned serial = of->marks[name][i].serial;
        if (it->fate[serial] == NOTHING_YET && it->waits[serial] && before == 0)
            before = it->sealed_in[serial];
        if (before != 0 && i >= of->own_from[name] && it->fate[serial] == TOOK_EFFECT && it->took_in[serial] != before)
            rule_broken(RULE_OVERTAKEN, "s%u text %u took effect in a session that began too early", name, serial);
    }
}

/* At the end all is done, or the outbox says why not; soon after the faults, if nothing was done to the session. */
static void look_at_undone(unsigned name, unsigned undone, int is_end)
{
    const struct name *it = &world.name[name];
    int may_be_late = it->is_struck || (is_stream(name) && has(KIND_KEYS)); /* a key is tried again after some minutes */
    if (undone > 0 && world.second == world.disturbed + PUNCTUAL && !may_be_late)
        rule_broken(RULE_LATE, "s%u has %u texts without effect after %d fair seconds, and nothing was done to it", name,
                    undone, PUNCTUAL);
    if (undone == 0 || !is_end)
        return;
    if (it->said == 0)
        rule_broken(RULE_UNTOLD, "s%u has %u texts without effect, and the outbox says nothing of it", name, undone);
    else if (!it->is_struck)
        rule_broken(RULE_STANDS, "s%u has %u texts without effect, and nothing was done to it: the outbox says that it %s",
                    name, undone, it->said & SAID_TO_BE_STOPPED ? "is stopped" : "stands");
}

/* The outbox is looked at before the store: what leaves it had its effect by then. */
static void look_at_box(struct box *it, int is_end)
{
    unsigned name;
    for (name = 0; name < world.names; name++)
        memset(world.name[name].waits, 0, sizeof world.name[name].waits);
    (void)box_run(it, "SELECT session, id FROM text UNION ALL SELECT session, text FROM sealed", take_text, it);
    look_at_effects();
    for (name = 0; name < world.names; name++) {
        look_at_undone(name, look_at_texts(it, name), is_end);
        if (is_stream(name))
            look_at_sessions(it, name);
    }
}

static void look_at_boxes(int with_texts, int is_end)
{
    unsigned i;
    for (i = 0; i < world.names; i++)
        world.name[i].said = world.name[i].stands = 0;
    for (i = 0; i < BOXES; i++)
        if (world.boxes[i].is_used)
            (void)box_run(&world.boxes[i], "SELECT session, reason, 0 FROM stopped UNION ALL"
                          " SELECT name, NULL, stands FROM session WHERE stands != 0", take_said, NULL); /* it can be read */
    for (i = 0; i < BOXES && with_texts; i++)
        if (world.boxes[i].is_used)
            look_at_box(&world.boxes[i], is_end && i == 0);
}

/* ---- What it costs */

/* Other texts than the refused one are run again for a fault, or where a program ended, and not for the refused one. */
static void look_at_costs(unsigned name)
{
    const struct name *it = &world.name[name];
    unsigned long frames = (unsigned long)FRAMES_OF_A_TEXT * it->serials + FRAMES_OF_A_SECOND * world.second + FRAMES;
    unsigned long causes = faults.of_stores + world.kills + world.stops + world.ends;
    unsigned long most = EFFECTS + EFFECTS_OF_A_FAULT * (has(KIND_SLOW_EFFECTS) ? causes - world.kills : causes);
    unsigned i;
    if (seen.published[name] > frames) {
        world.is_flooded = 1;
        rule_broken(RULE_FLOOD, "s%u: %lu frames were published for %u texts", name, seen.published[name], it->serials);
    }
    for (i = 0; i < it->serials && !(poisons.count > 0 && poisons.at[0].name == name); i++)
        if (seen.runs[name][i] > most)
            rule_broken(RULE_REPEATED, "the effect of s%u text %u was run %u times, with %lu kills and faults, %lu by the"
                        " watchdog", name, i, seen.runs[name][i], causes, seen.watchdogs);
}

/* What was seen of the ports in this second. The carrier confirms what it takes at once: the rest is under way. */
static void look_at_ports(void)
{
    int i;
    for (i = SENDER; i < PARTIES; i++) {
        if (seen.second.answered[i] == 0 && seen.second.looks[i] > VAIN_LOOKS)
            rule_broken(RULE_SPINS, "a sender looked %u times for receipts in a second, and was never answered",
                        seen.second.looks[i]);
        if (memory_of[i] > MOST_BYTES)
            rule_broken(RULE_LEAKS, "program %d has %lu bytes", i, (unsigned long)memory_of[i]);
    }
    for (i = 0; i < SHARDS && has(KIND_MANY); i++)
        if (seen.second.under_way[i] > UNDER_WAY)
            rule_broken(RULE_CROWDED, "%lu frames left for a shard in a second, and weren't confirmed",
                        seen.second.under_way[i]);
    if (seen.second.calls <= CALLS)
        return;
    rule_broken(RULE_SPINS, "%lu calls of SQL in a second", seen.second.calls);
    world.is_flooded |= ++spinning > SPINNING;
}

/* ---- What is known of a calm run */

static void look_at_repeats(unsigned name)
{
    unsigned i, again = 0, most = has(KIND_SKEWED) ? AGAIN - 1 : AGAIN;
    for (i = 1; i < world.name[name].serials; i++) {
        again += seen.left[name][i] > most;
        if (seen.left[name][i] > TIMES)
            rule_broken(RULE_FLOOD, "s%u: frame %u left %u times in a calm run", name, i, seen.left[name][i]);
    }
    if (again > MOST_AGAIN)
        rule_broken(RULE_FLOOD, "s%u: %u frames left more than %u times in a calm run", name, again, most);
    if (seen.second.receipts[name] > RECEIPTS)
        rule_broken(RULE_CHATTER, "s%u has %u receipts in a second", name, seen.second.receipts[name]);
}

/* Whether the outbox says of a session what is so. */
static void look_at_stands(struct name *it, unsigned name)
{
    unsigned last = it->serials > 0 ? it->serials - 1 : 0;
    it->was_refused |= it->stands == KRBRELAY_STANDS_REFUSED;
    if (it->said != 0 && world.second >= CALM_FROM && world.second < CALM_UNTIL && !has(KIND_SKEWED) && !has(KIND_SILENT))
        rule_broken(RULE_UNTRUE, "s%u is said to stand, and it doesn't", name);
    if (has(KIND_SKEWED) && !has(KIND_SILENT) && !is_stream(name) && world.second == REFUSED_UNTIL && it->serials > 0
        && it->fate[last] == NOTHING_YET && it->put_at[last] < REFUSED_FROM && !it->was_refused)
        rule_broken(RULE_UNTRUE, "receivers refused s%u, and the outbox has never said so", name);
}

static int take_number(void *given, int count, char **values, char **names)
{
    *(unsigned long *)given = values[0] != NULL ? strtoul(values[0], NULL, 10) : 0;
    return 0;
}

static unsigned long number_of(const char *sql)
{
    unsigned long number = 0;
    (void)box_run(&world.boxes[0], sql, take_number, &number); /* it can be read */
    return number;
}

/* Once all is done nothing of it is left. Of a stream the last two sessions are known. */
static void look_at_rest(void)
{
    unsigned long frames = number_of("SELECT count(*) FROM frame"), sealed = number_of("SELECT count(*) FROM sealed");
    unsigned long opened = number_of("SELECT max(many) FROM (SELECT count(*) AS many FROM opened GROUP BY stream)");
    unsigned name;
    if (frames + sealed > 0)
        rule_broken(RULE_KEPT, "the outbox has %lu frames and %lu texts of what took effect", frames, sealed);
    if (has(KIND_SKEWED) || has(KIND_SILENT))
        return;
    if (opened > OPENED)
        rule_broken(RULE_KEPT, "the outbox has %lu sessions of a stream", opened);
    for (name = 0; name < world.names; name++)
        if (frames_receipts_kept(name) > OPENED)
            rule_broken(RULE_KEPT, "the carrier has receipts of %u sessions of s%u", frames_receipts_kept(name), name);
}

/* ---- What is said of it */

static void look_at_health(void)
{
    int has_had_time = !has_been_faulty() && now - world.resumes[SENDER] < SECOND;
    if (seen.nothing_confirmed > 0)
        rule_broken(RULE_AWAY, "the sender says that nothing is confirmed, by a carrier that works");
    if (world.is_up[SENDER] && has_had_time && now > seen.worked_at + UNHEALTHY * SECOND)
        rule_broken(RULE_UNHEALTHY, "the sender hasn't been healthy for %d s, by a carrier that works", UNHEALTHY);
    unseen = world.full > 0 && world.is_up[SENDER] && !has_been_faulty() && !world.boxes[1].is_used ? unseen + 1 : 0;
    world.full = 0;
    if (unseen > UNSEEN && seen.waiting < 0.9 * seen.bound)
        rule_broken(RULE_FULL_UNSEEN, "the outbox refuses texts, and waiting_texts is %.0f of %.0f", seen.waiting, seen.bound);
}

static void look_at_refused(void)
{
    const struct poison *it = &poisons.at[0];
    unsigned runs = seen.runs[it->name][it->serial];
    if (poisons.count == 0 || it->until != UINT64_MAX || world.name[it->name].fate[it->serial] != NOTHING_YET
        || runs <= TRIES)
        return;
    if (seen.refused == 0)
        rule_broken(RULE_UNNAMED, "s%u has a text that is refused, and no line of a receiver's log names it", it->name);
    if (has(KIND_ASIDE))
        rule_broken(RULE_NOT_ASIDE, "s%u has a text that was refused %u times, and isn't put aside", it->name, runs);
}

/* ---- */

void rules_second(void)
{
    unsigned i;
    look_at_effects();
    look_at_boxes(world.second % LOOKED_EACH == 0 || (has(KIND_FORKED) && world.second < world.disturbed), 0);
    for (i = 0; i < world.names; i++) {
        look_at_costs(i);
        if (is_calm()) {
            look_at_repeats(i);
            look_at_stands(&world.name[i], i);
        }
    }
    look_at_ports();
    look_at_health();
    memset(&seen.second, 0, sizeof seen.second);
}

void rules_end(void)
{
    look_at_boxes(1, world.second >= world.disturbed + FAIR);
    look_at_refused();
    if (is_calm() && world.second < world.disturbed + FAIR)
        look_at_rest();
}
