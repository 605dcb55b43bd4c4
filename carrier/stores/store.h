/* What a receiver stores: the effects of the texts, what each session demands next, and how far
 * its shard was read, in one transaction.
 *
 * Whoever moves a session or a shard says where it stood (compare-and-set). If something else is
 * stored, another receiver has been at work, and nothing of the transaction takes effect: so it
 * doesn't matter how many receivers believe that a shard is theirs.
 *
 * What a frame is taken for, and what a session asks for with its receipts, is krb_engine's
 * (shard.h). */
#ifndef STORE_H
#define STORE_H

#include "history.h"
#include "answer.h"

#include <krbrelay.h>

#include <stddef.h>
#include <stdint.h>
#include <string.h>

struct store;

/* How far a shard was read: up to this offset of the carrier's list with this number (carrier.h).
 * All zeros: nothing was read. */
struct reached { uint64_t list, offset; };

/* What a session misses: nothing, a frame before one that came early, or one that was refused for a reason that
 * may pass; that is stored with libkrbrelay's answer. */
enum { MISSED_NOTHING = 0, MISSED_EARLY = 1, MISSED_UNSETTLED = 2 };
#define missed_by(answer) (MISSED_UNSETTLED + ((uint32_t)(answer) << 8))

/* A session: what it demands next, whether its close was accepted, and the history of its frames that took
 * effect, which isn't known of a session that an older version stored. For who looks, and for a receiver of
 * the version before, which reads again from there: the offset of its last frame that took effect, and what
 * it misses since. Nothing here is decided by these two. */
struct demand {
    uint64_t next;
    uint32_t closed;
    uint32_t missed;    /* MISSED_*, or missed_by an answer */
    uint64_t at;
    int32_t shard;      /* -1: it was stored before places were */
    uint32_t is_stored; /* 0: the store doesn't know the session */
    struct history history;
};

/* Ends the program with status 2 and a message unless --store names a store that it has. */
void store_check_option(const char *program, const char *where);

/* Opens "sqlite:FILE", in whose name '%' stands for the shard's number, or "postgresql://..".
 * NULL if it can't be opened. */
struct store *store_open(const char *where, unsigned shard);

/* Which file the store of a shard is: 0 and where it lies, or -1, as where it is none. */
int store_file(const char *where, unsigned shard, uint64_t *device, uint64_t *inode);

/* How far the shard was read. */
enum answer store_reached(struct store *store, unsigned shard, struct reached *reached);

/* Passes each of these sessions that is stored to a function. What that doesn't answer 0 ends it,
 * with -1. Their names are of the form that sessions.h says. */
typedef enum answer store_take(void *given, const char *session, const struct demand *demand);
enum answer store_sessions(struct store *store, const char *const *names, size_t count, store_take *take,
                           void *given);

/* Begins a transaction that moves the shard. If that is from one list to another, the places of all
 * its sessions become 0, and none of them misses anything. */
enum answer store_begin(struct store *store, unsigned shard, const struct reached *from,
                        const struct reached *to);

/* Within it: moves the shard from there to another offset of the same list. */
enum answer store_move(struct store *store, unsigned shard, const struct reached *from, const struct reached *to);

/* Moves a session from what is stored, or from nothing, to this. The store notes since when it has
 * missed something at its number. */
enum answer store_advance(struct store *store, const char *session, const struct demand *from,
                          const struct demand *to);

/* ---- For the effect of a text (effect.c): any statement that gives no rows, within the open
 * transaction. $1, $2 .. stand for its values, in this order. The statement's bytes stay as they
 * are: each is prepared once. */

enum value_kind { VALUE_NUMBER, VALUE_TEXT, VALUE_BYTES };
struct value { enum value_kind kind; uint64_t number; const void *at; size_t len; };

enum { STORE_VALUES = 12 }; /* the most of one statement */

enum answer store_run(struct store *store, const char *sql, const struct value *values, unsigned count);

/* The same of a row, "INSERT INTO .. VALUES ($1, ..)": it may be inserted later, but before another
 * statement is run. Values that are texts stay as they are until then. */
enum answer store_add(struct store *store, const char *sql, const struct value *values, unsigned count);

/* Values of a statement. */
static inline struct value number_value(uint64_t number)
{
    return (struct value){ VALUE_NUMBER, number, NULL, 0 };
}

static inline struct value text_value(const char *text)
{
    return (struct value){ VALUE_TEXT, 0, text, strlen(text) };
}

static inline struct value bytes_value(const void *at, size_t len)
{
    return (struct value){ VALUE_BYTES, 0, at, len };
}

/* ---- What a store does; the first member of each kind's own struct. */

/* tables/statements.toml: names of statements, by tools/tables */
enum store_sql { SELECT_REACHED, SELECT_SESSIONS, MOVE_SHARD, ADD_SESSION, MOVE_SESSION, RESET_SESSIONS, STORE_SQL };
/* end of names of statements */
enum { ANY_ROWS, ONE_ROW }; /* which a statement has to change, or its transaction has no effect */
enum { STORE_REFUSAL = 256, STORE_COLUMNS = 16 }; /* the room for a refusal, and the most columns of one row */
enum { STORE_STATEMENTS = 32 };                   /* the most that are given to one */

/* A row of a question, whose columns are texts; what doesn't answer 0 ends it, with -1. */
typedef enum answer store_row(void *given, const char *const *columns);

struct store {
    const char *const *sql;              /* its own statements, */
    const char *given[STORE_STATEMENTS]; /* and all that were given to it and are prepared */
    const char *checks_at_once;          /* has constraints be checked with each statement of a transaction; or NULL */

    enum answer (*begin)(struct store *);

    /* As store_run and store_add. */
    enum answer (*run)(struct store *, const char *sql, const struct value *values, unsigned count, int changes);
    enum answer (*add)(struct store *, const char *sql, const struct value *values, unsigned count);

    /* Why the values of the statement that failed last were refused: a constraint that they violate, what a trigger
     * raises, or a value that a column can't have. NULL if that isn't why it failed. */
    const char *(*refusal)(struct store *);

    /* Waits until what was run and added has taken effect; outside of a transaction that stays. */
    enum answer (*settle)(struct store *);

    /* Ends the transaction. After ANSWER_ELSEWHERE nothing took effect; after a fault it isn't known whether it did: all
     * is to be read again. */
    enum answer (*commit)(struct store *);

    /* Gives it up. */
    void (*rollback)(struct store *);

    /* Passes each row to a function, outside of a transaction. */
    enum answer (*ask)(struct store *, const char *sql, const struct value *values, unsigned count, store_row *take,
                       void *given);

    /* Whether it is still what was opened: a file that was replaced isn't, which is reported. */
    int (*is_there)(struct store *);

    void (*close)(struct store *);
};

/* The place of a statement among those that were given, or of one that is new; STORE_STATEMENTS, with a report, where
 * none is free. */
unsigned store_place(const struct store *store, const char *sql);

/* The table of stored_openings.h, in words of each store. */
extern const char kept_tables[];

struct store *sqlite_store_open(const char *path, unsigned shard);
int sqlite_store_file(const char *path, unsigned shard, uint64_t *device, uint64_t *inode);
struct store *postgresql_store_open(const char *where);

#endif
