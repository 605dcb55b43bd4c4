#include "database.h"
#include "clock.h"
#include "signals.h"
#include "log.h"
#include "owner_only.h"
#include "text.h"

#include <pthread.h>
#include <stdio.h>
#include <string.h>
#include <sys/stat.h>

#ifndef DATABASE_PATIENCE
#define DATABASE_PATIENCE 10000 /* milliseconds to wait for other processes */
#endif

enum { PATIENCE = DATABASE_PATIENCE, RETRY = 20 };

static enum answer report(sqlite3 *db, const char *what)
{
    const char *path = sqlite3_db_filename(db, "main");
    const char *name = path != NULL && *path != 0 ? path : "a database in memory";
    int code = sqlite3_errcode(db);
    if (code == SQLITE_BUSY || code == SQLITE_LOCKED)
        log_fact(LEVEL_ERROR, "database_locked", field_text("file", name),
                 field_number("seconds", PATIENCE / 1000), field_text("text",
                 "another process has been writing: end it, or wait. Nothing is lost"));
    else
        log_fact(LEVEL_ERROR, "database_fault", field_text("file", name),
                 field_text("statement", what), field_text("text", sqlite3_errmsg(db)));
    return ANSWER_FAULT;
}

/* With EXTRA also the folder is synced where the journal is deleted by which a new file becomes one with a
 * WAL. Else the journal may be there again after a loss of power, and takes back what was committed since.
 * If another process does the same at the same time, SQLite doesn't wait here by itself. */
static enum answer set_journal(sqlite3 *db)
{
    static const char sql[] = "PRAGMA synchronous = EXTRA; PRAGMA journal_mode = WAL;"
                              " PRAGMA wal_autocheckpoint = 4000; PRAGMA cache_size = -16000";
    int tries, answer = SQLITE_BUSY;
    for (tries = 0; tries < PATIENCE / RETRY && answer == SQLITE_BUSY && !is_ending(); tries++) {
        answer = sqlite3_exec(db, sql, NULL, NULL, NULL);
        if (answer == SQLITE_BUSY)
            pause_milliseconds(RETRY);
    }
    return answer == SQLITE_OK ? ANSWER_DONE : report(db, sql);
}

/* In one transaction, so that two processes may make the tables at once. */
static enum answer make_tables(sqlite3 *db, const char *tables)
{
    if (begin_writing(db) != ANSWER_DONE)
        return ANSWER_FAULT;
    if (run(db, tables) == ANSWER_DONE && run(db, "COMMIT") == ANSWER_DONE)
        return ANSWER_DONE;
    roll_back(db);
    return ANSWER_FAULT;
}

/* Waits for other processes, unless this one is to end: at first for a moment, as for what another one syncs. */
static int wait_for_others(void *given, int tries)
{
    (void)given;
    if (is_ending() || tries >= RETRY / 2 + PATIENCE / RETRY)
        return 0;
    pause_milliseconds(tries + 1 < RETRY ? (unsigned)tries + 1 : RETRY);
    return 1;
}

/* SQLite counts its memory, under a lock of all threads, and nobody asks for that. */
static void configure(void)
{
    (void)sqlite3_config(SQLITE_CONFIG_MEMSTATUS, 0); /* it is counted all the same if SQLite has begun before */
}

sqlite3 *open_database(const char *path, const char *tables)
{
    static pthread_once_t configured = PTHREAD_ONCE_INIT;
    /* Each database is of one thread, so its calls need no lock. */
    static const int flags = SQLITE_OPEN_READWRITE | SQLITE_OPEN_CREATE | SQLITE_OPEN_NOMUTEX;
    sqlite3 *db = NULL;
    if (pthread_once(&configured, configure) != 0)
        end_at_once("pthread_once");
    if (!owner_only_is(path))
        return NULL;
    if (sqlite3_open_v2(path, &db, flags, NULL) != SQLITE_OK) {
        log_fact(LEVEL_ERROR, "database_unopened", field_text("file", path),
                 field_text("fault", db != NULL ? sqlite3_errmsg(db) : "out of memory"),
                 field_text("text", "is there such a folder, and may this user write there?"));
        close_database(db);
        return NULL;
    }
    if (sqlite3_busy_handler(db, wait_for_others, NULL) == SQLITE_OK && set_journal(db) == ANSWER_DONE
        && make_tables(db, tables) == ANSWER_DONE)
        return db;
    close_database(db);
    return NULL;
}

static enum answer add_column(sqlite3 *db, const char *table, const char *column)
{
    char sql[256];
    struct statement select = { NULL, 0 };
    int len = (int)strcspn(column, " ");
    enum answer has = ANSWER_FAULT;
    write_whole(sql, sizeof sql, "SELECT 1 FROM pragma_table_info('%s') WHERE name = '%.*s'",
                table, len, column);
    if (prepare(db, &select, sql) == ANSWER_DONE)
        has = step_row(&select);
    finalize(&select, 1);
    if (has != ANSWER_DONE)
        return has == ANSWER_FOUND ? ANSWER_DONE : ANSWER_FAULT;
    write_whole(sql, sizeof sql, "ALTER TABLE %s ADD COLUMN %s", table, column);
    return run(db, sql);
}

enum answer add_columns(sqlite3 *db, const char *const columns[][2], size_t count)
{
    size_t i;
    for (i = 0; i < count; i++)
        if (add_column(db, columns[i][0], columns[i][1]) != ANSWER_DONE)
            return ANSWER_FAULT;
    return ANSWER_DONE;
}

enum answer run(sqlite3 *db, const char *sql)
{
    return sqlite3_exec(db, sql, NULL, NULL, NULL) == SQLITE_OK ? ANSWER_DONE : report(db, sql);
}

enum answer begin_writing(sqlite3 *db)
{
    return run(db, "BEGIN IMMEDIATE");
}

void roll_back(sqlite3 *db)
{
    if (!sqlite3_get_autocommit(db))
        (void)run(db, "ROLLBACK"); /* a fault is logged; the next BEGIN fails then */
}

/* ---- Statements */

enum answer prepare(sqlite3 *db, struct statement *statement, const char *sql)
{
    statement->is_unbound = 0;
    return sqlite3_prepare_v2(db, sql, -1, &statement->at, NULL) == SQLITE_OK ? ANSWER_DONE : report(db, sql);
}

enum answer prepare_all(sqlite3 *db, struct statement *statements, const char *const *sql, int count)
{
    int i;
    for (i = 0; i < count; i++)
        if (prepare(db, &statements[i], sql[i]) != ANSWER_DONE)
            return ANSWER_FAULT;
    return ANSWER_DONE;
}

/* What a call that gives a place its value answered. */
static void note_bound(struct statement *statement, int answer)
{
    statement->is_unbound |= answer != SQLITE_OK;
}

void bind_number(struct statement *statement, int place, sqlite3_int64 number)
{
    note_bound(statement, sqlite3_bind_int64(statement->at, place, number));
}

static void bind_words(struct statement *statement, int place, const char *text, sqlite3_destructor_type stays)
{
    note_bound(statement, text != NULL ? sqlite3_bind_text(statement->at, place, text, -1, stays) : SQLITE_MISUSE);
}

void bind_text(struct statement *statement, int place, const char *text)
{
    bind_words(statement, place, text, SQLITE_STATIC);
}

void bind_letters(struct statement *statement, int place, const char *text, size_t len)
{
    note_bound(statement, sqlite3_bind_text64(statement->at, place, text, len, SQLITE_STATIC,
                                              SQLITE_UTF8));
}

/* No bytes are a blob of none, wherever they stand. */
static void bind_blob(struct statement *statement, int place, const void *bytes, size_t len,
                      sqlite3_destructor_type stays)
{
    int answer = len == 0 ? sqlite3_bind_zeroblob(statement->at, place, 0)
                          : sqlite3_bind_blob64(statement->at, place, bytes, len, stays);
    note_bound(statement, answer);
}

void bind_bytes(struct statement *statement, int place, const void *bytes, size_t len)
{
    bind_blob(statement, place, bytes, len, SQLITE_STATIC);
}

static enum answer report_statement(const struct statement *statement)
{
    return report(sqlite3_db_handle(statement->at), sqlite3_sql(statement->at));
}

enum answer step_row(struct statement *statement)
{
    int answer;
    if (statement->is_unbound)
        return report_statement(statement);
    answer = sqlite3_step(statement->at);
    if (answer == SQLITE_ROW)
        return ANSWER_FOUND;
    return answer == SQLITE_DONE ? ANSWER_DONE : report_statement(statement);
}

enum answer check_columns(const struct statement *statement)
{
    return sqlite3_errcode(sqlite3_db_handle(statement->at)) == SQLITE_NOMEM
           ? report_statement(statement) : ANSWER_DONE;
}

enum answer step_once(struct statement *statement)
{
    enum answer answer = step_row(statement);
    end_rows(statement);
    return answer != ANSWER_FAULT ? ANSWER_DONE : ANSWER_FAULT;
}

void end_rows(struct statement *statement)
{
    (void)sqlite3_reset(statement->at); /* it says once more what the last step did */
    statement->is_unbound = 0;
}

/* ---- Rows that are inserted together */

/* As many SELECTs as rows at most, of which so many are run as there are rows. Where a row is refused, those before it
 * stay, since the transaction is given up: so SQLite keeps no copy of each page that the statement changes. */
enum answer prepare_rows(sqlite3 *db, struct rows *rows, const char *sql)
{
    static const char places[] = "?,?,?,?,?,?,?,?"; /* of the longest row */
    const char *values = strstr(sql, "VALUES "), *at = values;
    char text[2048];
    int i, len;
    *rows = (struct rows){ .places = 1 };
    while ((at = strchr(at + 1, ',')) != NULL)
        rows->places++;
    len = 2 * rows->places - 1;
    sql += strlen("INSERT");
    write_whole(text, sizeof text, "INSERT OR FAIL%.*sSELECT %.*s", (int)(values - sql), sql, len, places);
    for (i = 1; i < ROWS; i++)
        write_whole(text + strlen(text), sizeof text - strlen(text), " UNION ALL SELECT %.*s", len, places);
    write_whole(text + strlen(text), sizeof text - strlen(text), " LIMIT ?");
    return prepare(db, &rows->all, text);
}

int next_row(const struct rows *rows)
{
    return rows->count * rows->places;
}

void bind_copy(struct rows *rows, int place, const void *bytes, size_t len)
{
    bind_blob(&rows->all, place, bytes, len, SQLITE_TRANSIENT);
    rows->size += len;
}

void bind_name(struct rows *rows, int place, const char *name)
{
    bind_words(&rows->all, place, name, SQLITE_TRANSIENT);
}

enum answer add_row(struct rows *rows)
{
    return ++rows->count == ROWS || rows->size >= ROW_BYTES ? insert_rows(rows) : ANSWER_DONE;
}

enum answer insert_rows(struct rows *rows)
{
    enum answer answer;
    if (rows->count == 0)
        return ANSWER_DONE;
    bind_number(&rows->all, ROWS * rows->places + 1, rows->count);
    answer = step_once(&rows->all);
    rows->count = 0;
    rows->size = 0;
    return answer;
}

void forget_rows(struct rows *rows)
{
    if (rows->count > 0)
        (void)sqlite3_clear_bindings(rows->all.at); /* it has no fault */
    rows->all.is_unbound = rows->count = 0;
    rows->size = 0;
}

/* ---- */

void finalize(struct statement *statements, int count)
{
    int i;
    for (i = 0; i < count; i++)
        (void)sqlite3_finalize(statements[i].at); /* it says once more what the last step did */
}

void close_database(sqlite3 *db)
{
    if (sqlite3_close(db) != SQLITE_OK)
        log_fact(LEVEL_ERROR, "database_unclosed", field_text("text", sqlite3_errmsg(db)));
}

int find_file(const char *path, uint64_t *device, uint64_t *inode)
{
    struct stat found;
    if (stat(path, &found) != 0)
        return -1;
    *device = (uint64_t)found.st_dev;
    *inode = (uint64_t)found.st_ino;
    return 0;
}
