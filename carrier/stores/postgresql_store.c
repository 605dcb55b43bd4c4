/* A store in PostgreSQL: for receivers on several machines. What a transaction asks for is sent
 * without waiting for answers, and they are read before it is committed: two waits a transaction.
 *
 * Each wait ends. A receiver whose machine is gone can't keep the locks of its transaction for
 * longer than the server's idle_in_transaction_session_timeout, another waits for a lock no longer
 * than lock_timeout, and one whose server is gone learns it from TCP. What the server or --store
 * sets of these holds; else what postgresql.c says. After a fault the store is
 * opened again. */
#include "effect.h"
#include "log.h"
#include "postgresql.h"
#include "store.h"
#include "text.h"

#include <stdio.h>
#include <stdlib.h>
#include <string.h>

enum { SYNCED = 32 << 10 }; /* bytes, less than libpq keeps before it sends them */
enum { COMMITTED = ONE_ROW + 1, SYNC }; /* what an answer has to say, beside ANY_ROWS and ONE_ROW */

struct postgresql_store {
    struct store base;
    PGconn *db;
    unsigned char *expected;      /* of each answer that wasn't read, what it has to say */
    size_t asked, room;
    size_t unsynced;              /* bytes that were asked since the last sync */
    char refusal[STORE_REFUSAL];  /* why values were refused; "" if they weren't */
    int is_open;                  /* a transaction is open */
};

/* Each of those that change something changes one row if it stands where it is said, and else none.
 * tables/statements.toml: statements, by tools/tables */
static const char *const own_sql[STORE_SQL] = {
    [SELECT_REACHED] = ("SELECT incarnation, at FROM shard WHERE shard = $1::int"),
    [SELECT_SESSIONS] = ("SELECT next, closed, missed, at, shard, name, history FROM session"
                         " WHERE name = ANY ($1::text[])"),
    [MOVE_SHARD] = ("INSERT INTO shard (shard, incarnation, at)"
                    " SELECT $1::int, $4::bigint, $5::bigint"
                    " WHERE ($2::bigint = 0 AND $3::bigint = 0) OR EXISTS (SELECT 1 FROM shard WHERE shard = $1::int)"
                    " ON CONFLICT (shard) DO UPDATE SET incarnation = $4::bigint, at = $5::bigint"
                    " WHERE shard.incarnation = $2::bigint AND shard.at = $3::bigint"),
    [ADD_SESSION] = ("INSERT INTO session (name, next, closed, missed, at, shard, since, history)"
                     " VALUES ($1::text, $2::bigint, $3::int, $4::int, $5::bigint, $6::int,"
                     " CASE WHEN $4::int = 0 THEN 0 ELSE extract(epoch FROM now())::bigint END, $7::text) ON CONFLICT DO NOTHING"),
    [MOVE_SESSION] = ("UPDATE session SET"
                      " since = CASE WHEN next = $2::bigint AND (since > 0 OR $4::int = 0) THEN since"
                      " WHEN $4::int = 0 THEN 0 ELSE extract(epoch FROM now())::bigint END,"
                      " next = $2::bigint, closed = $3::int, missed = $4::int,"
                      " at = $5::bigint, shard = $6::int, history = $12::text"
                      " WHERE name = $1::text AND next = $7::bigint AND closed = $8::int AND missed = $9::int"
                      " AND at = $10::bigint AND shard = $11::int"),
    [RESET_SESSIONS] = ("UPDATE session SET at = 0, missed = 0 WHERE shard = $1::int"),
};
/* end of statements */

static enum answer report(struct postgresql_store *s, const char *what)
{
    return postgresql_report(s->db, what);
}

/* ---- What is asked without waiting */

static enum answer expect(struct postgresql_store *s, int expected)
{
    if (s->asked == s->room) {
        unsigned char *more = realloc(s->expected, 2 * s->room + 64);
        if (more == NULL)
            return ANSWER_FAULT;
        s->expected = more;
        s->room = 2 * s->room + 64;
    }
    s->expected[s->asked++] = (unsigned char)expected;
    return ANSWER_DONE;
}

/* Asks for a sync: the server answers what it was asked so far, and waits no longer for the rest
 * than its idle_in_transaction_session_timeout. Without one it waits for ever. */
static enum answer sync(struct postgresql_store *s)
{
    s->unsynced = 0;
    if (expect(s, SYNC) != ANSWER_DONE)
        return ANSWER_FAULT;
    return PQpipelineSync(s->db) ? ANSWER_DONE : report(s, "sync");
}

/* The classes of what is said of values: how many rows they give, data, integrity, a trigger's change, a check option, a
 * limit, as of an index, and what a function raises. */
static int is_of_values(const char *state)
{
    static const char *const classes[] = { "21", "22", "23", "27", "44", "54", "P0" };
    size_t i;
    for (i = 0; i < sizeof classes / sizeof *classes; i++)
        if (state != NULL && strncmp(state, classes[i], 2) == 0)
            return 1;
    return 0;
}

/* Keeps why values were refused, if that is what failed. It may have parts of a text, so it isn't logged. */
static int is_refusal(struct postgresql_store *s, const PGresult *result)
{
    const char *state = PQresultErrorField(result, PG_DIAG_SQLSTATE);
    const char *why = PQresultErrorField(result, PG_DIAG_MESSAGE_PRIMARY);
    if (!is_of_values(state))
        return 0;
    copy_cut(s->refusal, sizeof s->refusal, why != NULL ? why : state);
    log_fact(LEVEL_WARNING, "values_refused", field_text("state", state));
    return 1;
}

/* The first answer that isn't as it has to be decides. ANSWER_ELSEWHERE: no row was moved. */
static enum answer judge(struct postgresql_store *s, const PGresult *result, int expected)
{
    ExecStatusType status = PQresultStatus(result);
    if (status == PGRES_PIPELINE_ABORTED)
        return ANSWER_FAULT;
    if (status != PGRES_COMMAND_OK && status != PGRES_TUPLES_OK)
        return is_refusal(s, result) ? ANSWER_FAULT : report(s, "statement");
    if (expected == COMMITTED && strcmp(PQcmdStatus((PGresult *)result), "COMMIT") != 0)
        return ANSWER_FAULT;
    return expected == ONE_ROW && strcmp(PQcmdTuples((PGresult *)result), "1") != 0 ? ANSWER_ELSEWHERE : ANSWER_DONE;
}

/* Reads one answer, and the NULL after it, which a sync doesn't have. */
static enum answer read_answer(struct postgresql_store *s, int expected)
{
    PGresult *result = PQgetResult(s->db);
    int is_sync = PQresultStatus(result) == PGRES_PIPELINE_SYNC;
    enum answer answer = is_sync || expected == SYNC ? ANSWER_DONE : judge(s, result, expected);
    PQclear(result);
    if (is_sync != (expected == SYNC))
        return report(s, "answers out of step");
    result = is_sync ? NULL : PQgetResult(s->db);
    if (result == NULL)
        return answer;
    PQclear(result);
    return report(s, "answers out of step");
}

/* Reads all answers. ANSWER_ELSEWHERE: a statement that has to move one row moved none. What follows the first fault
 * isn't judged. */
static enum answer read_answers(struct postgresql_store *s)
{
    size_t i, asked;
    enum answer answer = sync(s);
    asked = s->asked;
    s->asked = 0;
    for (i = 0; i < asked && answer != ANSWER_FAULT; i++) {
        enum answer one = read_answer(s, s->expected[i]);
        if (answer == ANSWER_DONE || one == ANSWER_FAULT)
            answer = one;
    }
    return answer;
}

/* ---- Statements */

/* The name under which the statement is prepared: it is sent for that when it is first met. NULL
 * after a fault. */
static const char *prepared(struct postgresql_store *s, const char *sql, char name[32])
{
    unsigned i = store_place(&s->base, sql);
    if (i == STORE_STATEMENTS)
        return NULL;
    write_whole(name, 32, "given%u", i);
    if (s->base.given[i] == sql)
        return name;
    if (expect(s, ANY_ROWS) != ANSWER_DONE || !PQsendPrepare(s->db, name, sql, 0, NULL))
        return NULL;
    s->base.given[i] = sql;
    return name;
}

/* Values as libpq has them. */
struct given {
    char digits[STORE_VALUES][24];
    const char *texts[STORE_VALUES];
    int lengths[STORE_VALUES], formats[STORE_VALUES];
    size_t size; /* of them all, about */
};

static void give(struct given *g, const struct value *values, unsigned count)
{
    unsigned i;
    g->size = 0;
    for (i = 0; i < count; i++) {
        g->lengths[i] = (int)values[i].len;
        g->formats[i] = values[i].kind != VALUE_NUMBER; /* 1: its bytes as they are */
        g->texts[i] = values[i].kind == VALUE_NUMBER ? g->digits[i]
                      : values[i].len == 0           ? ""
                                                     : values[i].at;
        if (values[i].kind == VALUE_NUMBER)
            write_whole(g->digits[i], sizeof g->digits[i], "%lld", (long long)values[i].number);
        g->size += values[i].len + 64;
    }
}

static enum answer run_values(struct store *base, const char *sql, const struct value *values, unsigned count,
                              int expected)
{
    struct postgresql_store *s = (struct postgresql_store *)base;
    struct given g;
    char name[32];
    s->refusal[0] = 0;
    if (count > STORE_VALUES || prepared(s, sql, name) == NULL || expect(s, expected) != ANSWER_DONE)
        return ANSWER_FAULT;
    give(&g, values, count);
    if (!PQsendQueryPrepared(s->db, name, (int)count, g.texts, g.lengths, g.formats, 0))
        return report(s, sql);
    s->unsynced += g.size;
    return s->unsynced > SYNCED ? sync(s) : ANSWER_DONE;
}

static enum answer add_values(struct store *base, const char *sql, const struct value *values, unsigned count)
{
    return run_values(base, sql, values, count, ANY_ROWS);
}

static const char *refusal(struct store *base)
{
    const char *why = ((struct postgresql_store *)base)->refusal;
    return why[0] != 0 ? why : NULL;
}

static enum answer settle(struct store *base)
{
    return read_answers((struct postgresql_store *)base) == ANSWER_DONE ? ANSWER_DONE : ANSWER_FAULT;
}

/* ---- A transaction */

static enum answer begin_transaction(struct store *base)
{
    ((struct postgresql_store *)base)->is_open = 1;
    return run_values(base, "BEGIN", NULL, 0, ANY_ROWS);
}

/* After a fault the connection isn't used any more: what is left of the answers doesn't matter. */
static void rollback(struct store *base)
{
    struct postgresql_store *s = (struct postgresql_store *)base;
    if (!s->is_open)
        return;
    s->is_open = 0;
    if (read_answers(s) != ANSWER_FAULT && run_values(base, "ROLLBACK", NULL, 0, ANY_ROWS) == ANSWER_DONE)
        (void)read_answers(s); /* after a fault the next transaction has one too */
}

static enum answer commit(struct store *base)
{
    struct postgresql_store *s = (struct postgresql_store *)base;
    enum answer answer = read_answers(s);
    if (answer == ANSWER_DONE)
        answer = run_values(base, "COMMIT", NULL, 0, COMMITTED);
    if (answer == ANSWER_DONE)
        answer = read_answers(s);
    if (answer == ANSWER_ELSEWHERE)
        rollback(base);
    s->is_open = 0;
    return answer;
}

/* ---- What is asked and waited for */

/* The rows of a question, or NULL with a report; the caller clears them. */
static PGresult *query(struct postgresql_store *s, const char *sql, const struct value *values, unsigned count)
{
    struct given g;
    PGresult *result;
    give(&g, values, count);
    if (!PQexitPipelineMode(s->db)) {
        report(s, "the connection is lost, or answers are left");
        return NULL;
    }
    result = PQexecParams(s->db, sql, (int)count, NULL, g.texts, NULL, NULL, 0);
    if (PQresultStatus(result) == PGRES_TUPLES_OK && PQenterPipelineMode(s->db))
        return result;
    report(s, "is the server there? query");
    PQclear(result);
    return NULL;
}

static enum answer take_columns(const PGresult *result, int row, store_row *take, void *given)
{
    const char *columns[STORE_COLUMNS];
    int i;
    for (i = 0; i < PQnfields(result); i++)
        columns[i] = PQgetisnull(result, row, i) ? NULL : PQgetvalue(result, row, i);
    return take(given, columns);
}

static enum answer ask_rows(struct store *base, const char *sql, const struct value *values, unsigned count,
                       store_row *take, void *given)
{
    PGresult *result = query((struct postgresql_store *)base, sql, values, count);
    int row;
    enum answer answer = result != NULL ? ANSWER_DONE : ANSWER_FAULT;
    for (row = 0; answer == ANSWER_DONE && row < PQntuples(result); row++)
        answer = take_columns(result, row, take, given) == ANSWER_DONE ? ANSWER_DONE : ANSWER_FAULT;
    PQclear(result);
    return answer;
}

/* ---- */

/* A server that has changed is noticed by what it has (shard.c). */
static int is_there(struct store *base)
{
    (void)base;
    return 1;
}

static void close_store(struct store *base)
{
    struct postgresql_store *s = (struct postgresql_store *)base;
    PQfinish(s->db);
    free(s->expected);
    free(s);
}

/* In one transaction under a lock, so that two processes may make the tables at once: IF NOT EXISTS
 * alone fails then. Where all is there nothing is changed: ALTER TABLE and CREATE INDEX lock a table also if
 * there is nothing to do, and transactions of receivers that run would end by a deadlock. */
static const char tables[] =
    "SET client_min_messages = warning; BEGIN; SELECT pg_advisory_xact_lock(20);"
    "CREATE TABLE IF NOT EXISTS shard (shard bigint PRIMARY KEY, at bigint NOT NULL,"
    " incarnation bigint NOT NULL DEFAULT 0);"
    "CREATE TABLE IF NOT EXISTS session (name text PRIMARY KEY, next bigint NOT NULL,"
    " closed int NOT NULL, missed int NOT NULL DEFAULT 0, at bigint NOT NULL DEFAULT 0,"
    " shard int NOT NULL DEFAULT -1);"
    "DO $$ BEGIN IF NOT EXISTS (SELECT FROM pg_attribute WHERE attrelid = 'session'::regclass"
    " AND attname = 'missed') THEN"
    " ALTER TABLE shard ADD COLUMN incarnation bigint NOT NULL DEFAULT 0;"
    " ALTER TABLE session ADD COLUMN missed int NOT NULL DEFAULT 0,"
    " ADD COLUMN at bigint NOT NULL DEFAULT 0, ADD COLUMN shard int NOT NULL DEFAULT -1;"
    " END IF; IF NOT EXISTS (SELECT FROM pg_attribute WHERE attrelid = 'session'::regclass"
    " AND attname = 'history') THEN"
    " ALTER TABLE session ADD COLUMN IF NOT EXISTS since bigint NOT NULL DEFAULT 0,"
    " ADD COLUMN IF NOT EXISTS history text NOT NULL DEFAULT '';"
    " END IF; END $$;";

static const char opened_columns[] =
    "DO $$ BEGIN IF NOT EXISTS (SELECT FROM pg_attribute WHERE attrelid = 'opened'::regclass"
    " AND attname = 'history') THEN"
    " ALTER TABLE opened ADD COLUMN history text NOT NULL DEFAULT '';"
    " END IF; END $$;";

/* A role that may not make tables may use those that are there. */
static int make_tables(struct postgresql_store *s)
{
    const char *const steps[] = { tables, effect_tables_postgresql, kept_tables, opened_columns, "COMMIT" };
    unsigned i;
    for (i = 0; i < sizeof steps / sizeof *steps; i++) {
        PGresult *result = PQexec(s->db, steps[i]);
        const char *state = PQresultErrorField(result, PG_DIAG_SQLSTATE);
        if (state != NULL && strcmp(state, "42501") == 0) {
            PQclear(result);
            return postgresql_is_done(s->db, PQexec(s->db, "ROLLBACK"), "ROLLBACK");
        }
        if (!postgresql_is_done(s->db, result, "the tables"))
            return 0;
    }
    return 1;
}

struct store *postgresql_store_open(const char *where)
{
    struct postgresql_store *s = calloc(1, sizeof *s);
    if (s == NULL)
        return NULL;
    s->base = (struct store){ own_sql, { NULL }, "SET CONSTRAINTS ALL IMMEDIATE", begin_transaction, run_values,
                              add_values, refusal, settle,
                              commit, rollback, ask_rows, is_there, close_store };
    s->db = postgresql_connect(where);
    if (s->db != NULL && make_tables(s) && PQenterPipelineMode(s->db))
        return &s->base;
    close_store(&s->base);
    return NULL;
}
