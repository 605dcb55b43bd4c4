/* One run: the names and their texts, the outboxes in which an application puts these, and the programs. */
#ifndef WORLD_H
#define WORLD_H

#include "ports.h"

#include <sqlite3.h>

/* Seconds after the faults, in which all has to be done, or told, and soon; in which applications put texts in, in a calm run;
 * after which a calm run ends; and when the outbox is copied for a second sender. */
enum { DISTURBED = 60, FAIR = 400, PUNCTUAL = 100, CALM = 36, REST = 30, FORKED = 20 };
enum { PATHS = 300, BOXES = 2 };

/* ---- Texts */

/* A text of a name, the serial'th, is the row with this id of an outbox. */
struct mark { sqlite3_int64 id; unsigned serial; };

/* An outbox, as its application knows it: the texts that it put in, or that were in the copy. */
struct box {
    struct mark *marks[MOST_NAMES];
    unsigned count[MOST_NAMES], own_from[MOST_NAMES]; /* from here on they are in no other outbox */
    sqlite3 *application;
    char path[PATHS];
    int is_used;
};

enum fate { NOTHING_YET, TOOK_EFFECT, PUT_ASIDE };
enum { SAID_TO_STAND = 1, SAID_TO_BE_STOPPED = 2 };

struct name {
    unsigned shard, serials; /* texts of all outboxes have serials below this */
    unsigned last;           /* the last serial that took effect */
    unsigned forbidden_from; /* texts of a restored outbox from here on may not take effect, .. */
    int is_forbidden;        /* .. if the session has to be stopped, since it is older than a receipt */
    int has_advanced;        /* since the copy that was restored */
    int was_stopped, was_refused; /* as its outbox has said */
    int is_struck;           /* something was done to the session itself, so it may stand */
    unsigned said, stands;   /* what its outbox says, and why */
    unsigned short put_at[MOST_TEXTS]; /* in which second a text was put in, */
    uint64_t took_in[MOST_TEXTS], sealed_in[MOST_TEXTS]; /* and of a stream the digest of its session's name */
    unsigned char fate[MOST_TEXTS], waits[MOST_TEXTS]; /* waits: it is in an outbox, as was looked last */
};

struct world {
    uint64_t seed, second;
    uint64_t disturbed, rests; /* so many seconds have faults; it ends no sooner */
    unsigned names, shown, others; /* so many lines has the file of sessions, of the names (0: all) and of others */
    struct name name[MOST_NAMES];
    struct box boxes[BOXES], saved;
    char folder[PATHS - 40];
    int may_run[PARTIES], is_up[PARTIES], was_taken[SENDERS];
    uint64_t busy[PARTIES], resumes[PARTIES]; /* each party does something, or is stopped, and waits until these moments */
    uint64_t woken[PARTIES];        /* something comes for it then */
    unsigned long steps, kills, stops, ends, full; /* ends: of programs by themselves; full: texts that an outbox refused */
    int is_flooded;                 /* the run ends, since it would take too long */
};
extern struct world world;

/* A path in the run's folder. */
void path_of(char path[PATHS], const char *file);

/* Whether a name has no line: it is a stream of sessions by tickets. */
int is_stream(unsigned name);

/* ---- boxes.c */

void box_open(struct box *it);
void box_close(struct box *it);
void box_put(struct box *it, unsigned name);
void box_put_some(struct box *it);

/* An outbox that isn't open has the same texts from now on, in its file. */
void box_copy(struct box *to, const struct box *from);

/* Whether all that was put in took effect or was put aside. */
int box_is_done(const struct box *it);

/* Runs statements of its application; rows are passed on. */
int box_run(struct box *it, const char *sql, each_row *take, void *given);

/* ---- ends.c: the shipped programs */

void ends_begin(void);
void ends_step(int party);
void ends_stop(int party, int is_clean, uint64_t moment);
void ends_write_sessions(void);
void ends_use_sessions(unsigned within); /* receivers use the file as it is now, each within so many milliseconds */
int has_one_store(void);                 /* for all shards */
uint64_t ends_next(void);                /* when a program has its next step: a millisecond later, at least */

/* Something comes for a party at this moment: it waits no longer than a moment after that, or a second where it isn't told. */
void ends_wake(int party, uint64_t at);

/* The party does nothing until then. */
void ends_hold(int party, uint64_t until);

/* ---- events.c: what happens in this second */

void events_second(void);

/* ---- rules.c */

#define RULES(X) \
    X(DOUBLED) X(OVERTAKEN) X(CHANGED) X(LOST) X(LEFT_OUT) X(UNTOLD) X(STANDS) X(LATE) X(FLOOD) X(SPINS) X(REPEATED) X(AWAY) \
    X(UNHEALTHY) X(ENDED) X(FULL_UNSEEN) X(UNNAMED) X(NOT_ASIDE) X(ASIDE_EARLY) X(LEAKS) X(UNFAIR) X(CROWDED) X(CHATTER) \
    X(KEPT) X(UNTRUE) X(ELSEWHERE)
#define RULE_VALUE(name) RULE_##name,
enum rule { RULES(RULE_VALUE) RULE_COUNT };

void rules_second(void);
void rules_end(void);
void rule_broken(enum rule rule, const char *form, ...) __attribute__((format(printf, 2, 3)));

/* Prints those that were broken, each once: how many. */
unsigned rules_print(void);

#endif
