/* The parties of a run, the shipped senders and receivers, in one thread and in virtual time; and what the ports of
 * carrier/ do to them: the faults at each, and what was seen there. One party runs at a time, until it waits; each has
 * its own memory and its own databases, so that it can be killed within any call of a port. */
#ifndef PORTS_H
#define PORTS_H

#include "kinds.h"

#include <stddef.h>
#include <stdint.h>

/* Ports and callbacks are given more than they need here. */
#pragma GCC diagnostic ignored "-Wunused-parameter"

/* What stands in the place of a function of the programs or of a library (--wrap), and may call it. */
#define WRAPPED(type, name, ...) \
    type __real_##name(__VA_ARGS__); \
    type __wrap_##name(__VA_ARGS__); \
    type __wrap_##name(__VA_ARGS__)

enum { SENDERS = 2, RECEIVERS = 3, SHARDS = 2 };
enum { MOST_NAMES = 220, MOST_TEXTS = 2600, MOST_POISONS = 64 };

/* ---- Parties (parties.c, memory.c) */

/* Whose call it is. The world's own calls meet no fault. */
enum party { WORLD, SENDER, SENDER_2, RECEIVER, PARTIES = RECEIVER + RECEIVERS };
extern int running;

static inline int is_sender(int party)
{
    return party == SENDER || party == SENDER_2;
}

#define MILLISECOND UINT64_C(1000000) /* in nanoseconds, as all times are */
#define SECOND UINT64_C(1000000000)

/* When the party's step began; the moment within it; so much more has gone by. */
extern uint64_t now;
uint64_t moment(void);
void spend(uint64_t nanoseconds);

/* Numbers that follow from a seed, the same on each machine: one below a limit, which isn't 0. Those of the run's seed;
 * 1 in so many of a thousand cases, else 0. */
uint64_t chance_below(uint64_t *state, uint64_t limit);
extern uint64_t chance;
unsigned drawn(unsigned below);
int is_drawn(unsigned thousandths);

/* A digest that nobody forges here (FNV-1a). */
uint64_t digest_of(const void *bytes, size_t len);

/* Runs a step of a party: how long it took, and 1 if it was killed within. */
int party_run(int party, void (*step)(int), uint64_t *took);

/* The party that runs is killed here, as by SIGKILL; of a call that isn't within a step nothing comes of it. */
void party_killed(void);

/* What it has open is closed and what it has of memory is freed, as when a process ends. */
void party_end(int party);

/* Frees the memory that it has, which is so many bytes. */
void memory_free(int party);
extern size_t memory_of[PARTIES];

/* ---- Faults */

/* Which of the session's calls fail: chances are of 1,000, that of memory of 100,000. */
struct faults {
    unsigned lost, twice, carrier, slow, killed, database, memory, unknown, uncommitted;
    unsigned slow_effects;          /* milliseconds of each */
    const char *statement;          /* a statement with these words fails .. */
    int of_receivers, is_unreadable; /* .. of a receiver, or of a sender; its kind is that of the table frame */
    unsigned pass, times;           /* .. after so many, so often, */
    uint64_t from, until;           /* between these moments, */
    int code;                       /* with this code */
    int64_t clock[PARTIES];         /* seconds by which a clock is ahead */
    int has_no_keys[2], has_no_tickets; /* most keys can't be read, of a receiver and of a sender; the KDC is away */
    int loses_frame, loses_confirmation; /* the next one is lost, */
    int loses_receipts, is_silent;  /* all of them are; what is published is */
    int is_over;                    /* the world is fair from now on */
    uint64_t carrier_at;            /* when frames couldn't leave last, or nobody could hear of them */
    unsigned long injected, of_stores; /* faults so far, and those of stores */
};
extern struct faults faults;

/* A call may be killed, or take long. */
void port_is_killed(void);
void port_is_slow(void);

/* ---- What was seen */

/* The number of a name, by a session's or its stream's; MOST_NAMES if it is none of the application's. */
unsigned name_of(const char *session);

struct seen {
    struct {
        unsigned long calls, under_way[SHARDS]; /* of SQL; frames that left, beside those that were confirmed */
        unsigned looks[PARTIES], answered[PARTIES]; /* for receipts */
        unsigned receipts[MOST_NAMES + 1];  /* of a name */
    } second;                               /* since the last second */
    unsigned long published[MOST_NAMES + 1]; /* frames of a name, */
    unsigned char left[MOST_NAMES + 1][MOST_TEXTS]; /* and how often the one of a number of its session was */
    unsigned short runs[MOST_NAMES][MOST_TEXTS]; /* of a text's effect */
    unsigned long watchdogs;                /* that ended a receiver */
    unsigned long nothing_confirmed;        /* was said though the carrier had worked for half a minute */
    unsigned long refused;                  /* lines of a receiver's log that name the session whose text is refused */
    uint64_t worked_at;                     /* when the sender was healthy last, or had a reason not to be */
    double waiting, bound;                  /* what the sender's metrics say of the outbox */
};
extern struct seen seen;

/* Whether the carrier, or what is needed for frames to leave, was faulty just now. */
int has_been_faulty(void);

/* ---- SQL of the shipped outbox and store (statements.c) */

typedef int each_row(void *given, int count, char **values, char **names);

/* Closes what a party has open, which rolls back what it didn't commit. */
void statements_close(int party);

/* One of the statements that were seen of receivers, or of senders; "" if none was. */
const char *statements_one(int of_receivers, unsigned which);

/* ---- The carrier (frames.c) */

void frames_begin(void);

/* A shard is another list from now on; its last frames are gone; the kept receipts are gone; how many are kept of sessions of
 * a name. */
void frames_delete(unsigned shard);
void frames_cut(unsigned shard, unsigned count);
void frames_purge(void);
unsigned frames_receipts_kept(unsigned name);

/* ---- The engine (engine.c): this run has the planted fault of this name. 0 if there is none. */

int engine_plant(const char *text);

/* ---- Effects (refusing.c) */

/* Texts that are refused until a moment: by a constraint, or by another error. */
struct poison { unsigned name, serial; int is_error; uint64_t until; };
extern struct poisons { unsigned count; struct poison at[MOST_POISONS]; } poisons;

#endif
