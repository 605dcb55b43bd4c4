/* A store of one SQLite file, or of one for each shard: for receivers on one machine. */
#include "database.h"
#include "effect.h"
#include "log.h"
#include "store.h"
#include "text.h"

#include <stdio.h>
#include <stdlib.h>
#include <string.h>

enum { STORE_PATH = 512 };

struct sqlite_store {
    struct store base;
    sqlite3 *db;
    struct statement prepared[STORE_STATEMENTS]; /* what was given */
    const char *added;            /* the statement of the rows that are inserted together */
    struct rows rows;
    char path[STORE_PATH];        /* where the file is, and which one is there */
    uint64_t device, inode;
    char refusal[STORE_REFUSAL];  /* why values were refused; "" if they weren't */
    int is_fenced;                /* something that this transaction moves stood elsewhere */
};

static const char tables[] =
    "CREATE TABLE IF NOT EXISTS shard (shard INTEGER PRIMARY KEY, offset INTEGER NOT NULL);"
    "CREATE TABLE IF NOT EXISTS session (name TEXT PRIMARY KEY, next INTEGER NOT NULL,"
    " closed INTEGER NOT NULL) WITHOUT ROWID;";

static const char *const columns[][2] = {
    { "shard", "incarnation INTEGER NOT NULL DEFAULT 0" },
    { "session", "missed INTEGER NOT NULL DEFAULT 0" },
    { "session", "at INTEGER NOT NULL DEFAULT 0" },
    { "session", "shard INTEGER NOT NULL DEFAULT -1" },
    { "session", "since INTEGER NOT NULL DEFAULT 0" },
    { "session", "history TEXT NOT NULL DEFAULT ''" },
};

/* Each changes one row if it stands where it is said, and else none. A row that isn't there stands
 * at zeros, or nowhere.
 * tables/statements.toml: statements, by tools/tables */
static const char *const own_sql[STORE_SQL] = {
    [SELECT_REACHED] = ("SELECT incarnation, offset FROM shard WHERE shard = ?1"),
    [SELECT_SESSIONS] = ("SELECT next, closed, missed, at, shard, name, history FROM session"
                         " WHERE name IN (SELECT value FROM json_each('[' || trim(?1, '{}') || ']'))"),
    [MOVE_SHARD] = ("INSERT INTO shard (shard, incarnation, offset)"
                    " SELECT ?1, ?4, ?5"
                    " WHERE (?2 = 0 AND ?3 = 0) OR EXISTS (SELECT 1 FROM shard WHERE shard = ?1)"
                    " ON CONFLICT (shard) DO UPDATE SET incarnation = ?4, offset = ?5"
                    " WHERE shard.incarnation = ?2 AND shard.offset = ?3"),
    [ADD_SESSION] = ("INSERT INTO session (name, next, closed, missed, at, shard, since, history)"
                     " VALUES (?1, ?2, ?3, ?4, ?5, ?6,"
                     " CASE WHEN ?4 = 0 THEN 0 ELSE strftime('%s') END, ?7) ON CONFLICT DO NOTHING"),
    [MOVE_SESSION] = ("UPDATE session SET"
                      " since = CASE WHEN next = ?2 AND (since > 0 OR ?4 = 0) THEN since"
                      " WHEN ?4 = 0 THEN 0 ELSE strftime('%s') END,"
                      " next = ?2, closed = ?3, missed = ?4,"
                      " at = ?5, shard = ?6, history = ?12"
                      " WHERE name = ?1 AND next = ?7 AND closed = ?8 AND missed = ?9"
                      " AND at = ?10 AND shard = ?11"),
    [RESET_SESSIONS] = ("UPDATE session SET at = 0, missed = 0 WHERE shard = ?1"),
};
/* end of statements */

static enum answer begin_transaction(struct store *base)
{
    struct sqlite_store *s = (struct sqlite_store *)base;
    s->is_fenced = 0;
    return begin_writing(s->db);
}

static void rollback(struct store *base)
{
    struct sqlite_store *s = (struct sqlite_store *)base;
    forget_rows(&s->rows);
    roll_back(s->db);
}

/* Whether a statement that failed is right by itself: else a table or a function isn't there. */
static int is_right(struct sqlite_store *s, const char *sql)
{
    struct statement again = { NULL, 0 };
    int answer = sql != NULL && prepare(s->db, &again, sql) == ANSWER_DONE;
    finalize(&again, 1);
    return answer;
}

/* What a statement with values answered; if they were refused, that is kept. */
static enum answer note_refusal(struct sqlite_store *s, enum answer answer, const char *sql)
{
    int why = answer != ANSWER_DONE ? sqlite3_errcode(s->db) : SQLITE_OK;
    char text[STORE_REFUSAL] = "";
    s->refusal[0] = 0;
    if (answer != ANSWER_DONE)
        copy_cut(text, sizeof text, sqlite3_errmsg(s->db));
    if (why == SQLITE_CONSTRAINT || why == SQLITE_MISMATCH || why == SQLITE_TOOBIG
        || (why == SQLITE_ERROR && is_right(s, sql)))
        copy_cut(s->refusal, sizeof s->refusal, text);
    return answer;
}

/* Inserts the rows that wait. */
static enum answer settle(struct store *base)
{
    struct sqlite_store *s = (struct sqlite_store *)base;
    return note_refusal(s, insert_rows(&s->rows), s->added);
}

static enum answer commit(struct store *base)
{
    struct sqlite_store *s = (struct sqlite_store *)base;
    enum answer answer = settle(base);
    if (s->is_fenced) {
        rollback(base);
        return ANSWER_ELSEWHERE;
    }
    if (answer == ANSWER_DONE && run(s->db, "COMMIT") == ANSWER_DONE)
        return ANSWER_DONE;
    rollback(base);
    return ANSWER_FAULT;
}

/* ---- Statements */

/* The statement, which is prepared when it is first met. */
static struct statement *prepared(struct sqlite_store *s, const char *sql)
{
    unsigned i = store_place(&s->base, sql);
    if (i < STORE_STATEMENTS && s->base.given[i] == NULL && prepare(s->db, &s->prepared[i], sql) == ANSWER_DONE)
        s->base.given[i] = sql;
    return i < STORE_STATEMENTS && s->base.given[i] != NULL ? &s->prepared[i] : NULL;
}

static void bind(struct statement *statement, int place, const struct value *value)
{
    if (value->kind == VALUE_NUMBER)
        bind_number(statement, place, (sqlite3_int64)value->number);
    else if (value->kind == VALUE_TEXT)
        bind_letters(statement, place, value->at, value->len);
    else
        bind_bytes(statement, place, value->at, value->len);
}

/* The statement with its values, after the rows that were added before; or NULL. */
static struct statement *bound(struct store *base, const char *sql, const struct value *values,
                               unsigned count)
{
    struct statement *statement = settle(base) == ANSWER_DONE ? prepared((struct sqlite_store *)base, sql) : NULL;
    unsigned i;
    for (i = 0; i < count && statement != NULL; i++)
        bind(statement, (int)i + 1, &values[i]);
    return statement;
}

static enum answer run_values(struct store *base, const char *sql, const struct value *values, unsigned count,
                              int changes)
{
    struct sqlite_store *s = (struct sqlite_store *)base;
    struct statement *statement = bound(base, sql, values, count);
    enum answer answer = statement != NULL ? note_refusal(s, step_once(statement), sql) : ANSWER_FAULT;
    if (answer == ANSWER_DONE && changes == ONE_ROW)
        s->is_fenced |= sqlite3_changes(s->db) != 1;
    return answer;
}

static enum answer add_values(struct store *base, const char *sql, const struct value *values, unsigned count)
{
    struct sqlite_store *s = (struct sqlite_store *)base;
    int place = next_row(&s->rows);
    unsigned i;
    if (s->added == NULL && prepare_rows(s->db, &s->rows, sql) == ANSWER_DONE)
        s->added = sql;
    if (s->added != sql)
        return run_values(base, sql, values, count, ANY_ROWS);
    for (i = 0; i < count; i++)
        if (values[i].kind == VALUE_BYTES)
            bind_copy(&s->rows, ++place, values[i].at, values[i].len);
        else
            bind(&s->rows.all, ++place, &values[i]);
    return note_refusal(s, add_row(&s->rows), s->added);
}

static const char *refusal(struct store *base)
{
    const char *why = ((struct sqlite_store *)base)->refusal;
    return why[0] != 0 ? why : NULL;
}

static enum answer take_columns(const struct statement *select, store_row *take, void *given)
{
    const char *texts[STORE_COLUMNS];
    int i, count = sqlite3_column_count(select->at);
    for (i = 0; i < count; i++)
        texts[i] = (const char *)sqlite3_column_text(select->at, i);
    return check_columns(select) == ANSWER_DONE ? take(given, texts) : ANSWER_FAULT;
}

static enum answer ask_rows(struct store *base, const char *sql, const struct value *values, unsigned count,
                       store_row *take, void *given)
{
    struct statement *select = bound(base, sql, values, count);
    enum answer answer = ANSWER_DONE, row;
    if (select == NULL)
        return ANSWER_FAULT;
    while (answer == ANSWER_DONE && (row = step_row(select)) != ANSWER_DONE)
        answer = row == ANSWER_FOUND ? take_columns(select, take, given) : ANSWER_FAULT;
    end_rows(select);
    return answer == ANSWER_DONE ? ANSWER_DONE : ANSWER_FAULT;
}

/* ---- */

static void close_store(struct store *base)
{
    struct sqlite_store *s = (struct sqlite_store *)base;
    finalize(s->prepared, STORE_STATEMENTS);
    finalize(&s->rows.all, 1);
    close_database(s->db);
    free(s);
}

/* The path with the shard's number in the place of its '%'. NULL if it is too long. */
static const char *path_of_shard(const char *path, unsigned shard, char *name, size_t room)
{
    const char *mark = strchr(path, '%');
    int before = (int)(mark != NULL ? mark - path : 0);
    int len = mark == NULL ? snprintf(name, room, "%s", path)
                           : snprintf(name, room, "%.*s%u%s", before, path, shard, mark + 1);
    if (len >= 0 && (size_t)len < room)
        return name;
    log_fact(LEVEL_ERROR, "store_name_too_long", field_text("file", path));
    return NULL;
}

int sqlite_store_file(const char *path, unsigned shard, uint64_t *device, uint64_t *inode)
{
    char name[STORE_PATH];
    return path_of_shard(path, shard, name, sizeof name) != NULL ? find_file(name, device, inode) : -1;
}

static const char *const opened_columns[][2] = {
    { "opened", "history TEXT NOT NULL DEFAULT ''" },
};

/* The tables of effects, and what files of an older version don't have. */
static enum answer complete(sqlite3 *db)
{
    if (begin_writing(db) != ANSWER_DONE)
        return ANSWER_FAULT;
    if (add_columns(db, columns, sizeof columns / sizeof *columns) == ANSWER_DONE
        && run(db, effect_tables_sqlite) == ANSWER_DONE
        && add_columns(db, effect_columns, effect_column_count) == ANSWER_DONE && run(db, kept_tables) == ANSWER_DONE
        && add_columns(db, opened_columns, 1) == ANSWER_DONE && run(db, "COMMIT") == ANSWER_DONE)
        return ANSWER_DONE;
    roll_back(db);
    return ANSWER_FAULT;
}

static enum answer open_store(struct sqlite_store *s, const char *path, unsigned shard)
{
    if (path_of_shard(path, shard, s->path, sizeof s->path) == NULL)
        return ANSWER_FAULT;
    s->db = open_database(s->path, tables);
    return s->db != NULL && find_file(s->path, &s->device, &s->inode) == 0 && complete(s->db) == ANSWER_DONE
           ? ANSWER_DONE : ANSWER_FAULT;
}

static int is_there(struct store *base)
{
    const struct sqlite_store *s = (const struct sqlite_store *)base;
    uint64_t device = 0, inode = 0;
    if (find_file(s->path, &device, &inode) == 0 && device == s->device && inode == s->inode)
        return 1;
    log_fact(LEVEL_ERROR, "store_replaced", field_text("file", s->path),
             field_text("text", "the file at this place has changed: it is opened again, and read from what it has"));
    return 0;
}

struct store *sqlite_store_open(const char *path, unsigned shard)
{
    struct sqlite_store *s = calloc(1, sizeof *s);
    if (s == NULL)
        return NULL;
    s->base = (struct store){ own_sql, { NULL }, NULL, begin_transaction, run_values, add_values, refusal, settle, commit,
                              rollback, ask_rows,
                              is_there, close_store };
    if (open_store(s, path, shard) == ANSWER_DONE)
        return &s->base;
    close_store(&s->base);
    return NULL;
}
