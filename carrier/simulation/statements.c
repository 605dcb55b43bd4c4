/* In the place of the calls of SQLite (--wrap): they fail as drawn, also after what they did, or the party is killed. */
#include "ports.h"

#include <sqlite3.h>
#include <stdio.h>
#include <string.h>

enum { DATABASES = 8, SEEN = 96, SEEN_LENGTH = 100 };
#define COST (SECOND / 100000) /* of a call: without it a loop would take no time */
#define BUSY (10 * SECOND)     /* that a call waits for a file that is locked */

int __real_sqlite3_close(sqlite3 *db);

/* What each party has open, and with which code its last call failed by a fault of these; 0: by none. */
static struct open { sqlite3 *db; int code; } opened[PARTIES][DATABASES];

/* The statements that were seen, of senders and of receivers. */
static char texts[2][SEEN][SEEN_LENGTH];
static unsigned text_count[2];

/* ---- What is open */

static struct open *open_of(const sqlite3 *db)
{
    static struct open none;
    unsigned i;
    for (i = 0; i < PARTIES * DATABASES && db != NULL; i++)
        if (opened[i / DATABASES][i % DATABASES].db == db)
            return &opened[i / DATABASES][i % DATABASES];
    none.code = 0;
    return &none;
}

void statements_close(int party)
{
    sqlite3_stmt *statement;
    struct open *it;
    for (it = opened[party]; it < opened[party] + DATABASES; it++) {
        if (it->db == NULL)
            continue;
        while ((statement = sqlite3_next_stmt(it->db, NULL)) != NULL)
            sqlite3_finalize(statement);
        (void)__real_sqlite3_close(it->db); /* it has no statement */
        *it = (struct open){ 0 };
    }
}

const char *statements_one(int of_receivers, unsigned which)
{
    return text_count[of_receivers] > 0 ? texts[of_receivers][which % text_count[of_receivers]] : "";
}

static void see(const char *sql)
{
    int of = !is_sender(running);
    unsigned i;
    for (i = 0; i < text_count[of]; i++)
        if (strncmp(texts[of][i], sql, SEEN_LENGTH - 1) == 0)
            return;
    if (text_count[of] < SEEN && strncmp(sql, "CREATE", 6) != 0)
        (void)snprintf(texts[of][text_count[of]++], SEEN_LENGTH, "%s", sql); /* a long one is cut */
}

/* ---- Faults */

static int fail(sqlite3 *db, int code, enum kind kind)
{
    open_of(db)->code = code;
    happened(kind, 1);
    faults.injected++;
    faults.of_stores += !is_sender(running);
    faults.carrier_at = now;
    if (code == SQLITE_BUSY)
        spend(BUSY);
    return code;
}

/* Whether it is the statement's turn to fail. */
static int is_struck(const char *sql)
{
    if (faults.times == 0 || moment() < faults.from || moment() >= faults.until || faults.of_receivers == is_sender(running)
        || strstr(sql, faults.statement) == NULL)
        return 0;
    if (faults.pass > 0) {
        faults.pass--;
        return 0;
    }
    faults.times--;
    return 1;
}

/* 0, or the code with which this statement fails. Giving up a transaction never does. */
static int failure_of(sqlite3 *db, const char *sql)
{
    static const int codes[] = { SQLITE_IOERR, SQLITE_NOMEM, SQLITE_FULL, SQLITE_BUSY, SQLITE_CORRUPT };
    open_of(db)->code = 0;
    if (running == WORLD || sql == NULL || strncmp(sql, "ROLLBACK", 8) == 0)
        return 0;
    seen.second.calls++;
    spend(COST);
    see(sql);
    port_is_killed();
    port_is_slow();
    if (is_struck(sql))
        return fail(db, faults.code, faults.is_unreadable ? KIND_UNREADABLE : KIND_STATEMENT);
    if (is_drawn(faults.database))
        return fail(db, codes[drawn(sizeof codes / sizeof *codes)], KIND_DATABASE);
    return 0;
}

/* ---- The calls */

WRAPPED(int, sqlite3_step, sqlite3_stmt *it)
{
    int code = failure_of(sqlite3_db_handle(it), sqlite3_sql(it));
    return code != 0 ? code : __real_sqlite3_step(it);
}

/* A commit may have taken effect, and nobody hears of it, or hears that it has not. */
WRAPPED(int, sqlite3_exec, sqlite3 *db, const char *sql, each_row *take, void *given, char **error)
{
    enum kind unknown = is_sender(running) ? KIND_OUTBOX_UNKNOWN : KIND_STORE_UNKNOWN;
    int code = failure_of(db, sql), answer;
    if (code != 0)
        return code;
    if (running != WORLD && strcmp(sql, "COMMIT") == 0 && is_drawn(faults.uncommitted))
        return fail(db, SQLITE_FULL, KIND_UNCOMMITTED);
    answer = __real_sqlite3_exec(db, sql, take, given, error);
    if (running == WORLD || answer != SQLITE_OK || strcmp(sql, "COMMIT") != 0)
        return answer;
    port_is_killed();
    return has(unknown) && is_drawn(faults.unknown) ? fail(db, SQLITE_IOERR, unknown) : answer;
}

WRAPPED(int, sqlite3_prepare_v2, sqlite3 *db, const char *sql, int len, sqlite3_stmt **to, const char **rest)
{
    open_of(db)->code = 0;
    if (running == WORLD || !is_drawn(faults.database))
        return __real_sqlite3_prepare_v2(db, sql, len, to, rest);
    *to = NULL;
    return fail(db, SQLITE_NOMEM, KIND_DATABASE);
}

WRAPPED(int, sqlite3_open_v2, const char *path, sqlite3 **db, int flags, const char *vfs)
{
    int answer = __real_sqlite3_open_v2(path, db, flags, vfs);
    unsigned i = 0;
    while (i < DATABASES && opened[running][i].db != NULL)
        i++;
    if (running != WORLD && answer == SQLITE_OK && i < DATABASES)
        opened[running][i] = (struct open){ *db, 0 };
    return answer;
}

WRAPPED(int, sqlite3_close, sqlite3 *db)
{
    struct open *it = open_of(db);
    int answer = __real_sqlite3_close(db);
    if (answer == SQLITE_OK)
        *it = (struct open){ 0 };
    return answer;
}

WRAPPED(int, sqlite3_errcode, sqlite3 *db)
{
    int code = open_of(db)->code;
    return code != 0 ? code : __real_sqlite3_errcode(db);
}

WRAPPED(const char *, sqlite3_errmsg, sqlite3 *db)
{
    return open_of(db)->code != 0 ? "a simulated fault" : __real_sqlite3_errmsg(db);
}
