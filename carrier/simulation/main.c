/* One run. `usage` says how it is called. */
#include "world.h"

#include <stdio.h>
#include <stdlib.h>
#include <string.h>
#include <sys/stat.h>
#include <time.h>

enum { FEW = 6, LOTS = 210, SHORT_REST = 5, CALM_REST = 15 /* seconds */ };

static const char usage[] =
    "simulation FOLDER PROFILE SEED\n"
    "  FOLDER   for the databases of the run: it is empty\n"
    "  PROFILE  the kinds of faults and limits, joined by '+'; kinds.h has them\n"
    "It prints a line for each rule that is broken; then how often each kind of fault happened, and how long it took.\n"
    "The variable SIMULATION_LOG has the programs log, and SIMULATION_PLANT names a fault that is planted (engine.c).\n"
    "Status: 1 if a rule is broken.\n";

struct world world;
struct faults faults;

void path_of(char path[PATHS], const char *file)
{
    (void)snprintf(path, PATHS, "%s/%s", world.folder, file); /* main looks at the folder's length */
}

/* A session by a ticket has a name that begins with `t` and the number of its stream. */
unsigned name_of(const char *session)
{
    int is_one = (session[0] == 's' || session[0] == 't') && session[1] >= '0' && session[1] <= '9';
    unsigned long number = is_one ? strtoul(session + 1, NULL, 10) : MOST_NAMES;
    return number < MOST_NAMES ? (unsigned)number : MOST_NAMES;
}

int is_stream(unsigned name)
{
    return has(KIND_TICKETS) && name >= (world.names + 1) / 2;
}

/* ---- A run */

/* The first step of the sender makes the outbox. */
static void begin(uint64_t seed)
{
    unsigned i;
    chance = world.seed = seed;
    faults.carrier_at = seen.worked_at = now;
    world.disturbed = limited(LIMIT_SECONDS, DISTURBED);
    world.names = limited(LIMIT_NAMES, has(KIND_MANY) ? LOTS : FEW);
    for (i = 0; i < world.names; i++)
        world.name[i].shard = has(KIND_MANY) ? 0 : i % SHARDS;
    path_of(world.boxes[0].path, "outbox.db");
    path_of(world.boxes[1].path, "forked.db");
    path_of(world.saved.path, "copy.db");
    frames_begin();
    ends_begin();
    ends_step(SENDER);
    box_open(&world.boxes[0]);
}

/* Where there are two outboxes all names have texts of both at first. */
static void put_texts(void)
{
    unsigned i;
    if (world.second >= (is_calm() && CALM < world.disturbed ? CALM : world.disturbed))
        return;
    box_put_some(&world.boxes[0]);
    if (!world.boxes[1].is_used)
        return;
    box_put_some(&world.boxes[1]);
    for (i = 0; world.second < 24 && i < world.names; i++) {
        box_put(&world.boxes[0], i);
        box_put(&world.boxes[1], i);
    }
}

/* In a calm run the last receipts come before it ends. */
static int is_done(void)
{
    if (is_calm() && !box_is_done(&world.boxes[0]))
        world.rests = world.second + CALM_REST;
    return world.is_flooded || world.second >= world.disturbed + FAIR
           || (world.second >= world.disturbed + (is_calm() ? REST : SHORT_REST) && world.second >= world.rests
               && box_is_done(&world.boxes[0]));
}

static void run(uint64_t seed)
{
    uint64_t next;
    int party;
    begin(seed);
    next = now + SECOND;
    while (!is_done()) {
        for (party = SENDER; party < PARTIES; party++)
            if (world.may_run[party] && world.resumes[party] <= now)
                ends_step(party);
        for (now = ends_next(); now >= next && !is_done(); next += SECOND) {
            world.second++;
            events_second();
            put_texts();
            rules_second();
        }
    }
    rules_end();
    for (party = SENDER; party < PARTIES; party++)
        ends_stop(party, 1, 0);
    box_close(&world.boxes[0]);
    box_close(&world.boxes[1]);
}

/* ---- */

int main(int count, char **words)
{
    const char *plant = getenv("SIMULATION_PLANT");
    unsigned broken;
    if (count != 4 || strlen(words[1]) >= sizeof world.folder || !kinds_choose(words[2])
        || (plant != NULL && !engine_plant(plant))) {
        (void)fputs(usage, stderr);
        return 2;
    }
    (void)strcpy(world.folder, words[1]);
    umask(077); /* as the programs do */
    run(strtoull(words[3], NULL, 10));
    broken = rules_print();
    kinds_print();
    printf("%lu steps, %llu virtual seconds, %.3f s of a processor\n", world.steps, (unsigned long long)(now / SECOND),
           (double)clock() / CLOCKS_PER_SEC);
    return broken > 0;
}
