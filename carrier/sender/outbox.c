#include "outbox.h"
#include "clock.h"
#include "log.h"
#include "text.h"

#include <stdio.h>
#include <string.h>

/* Where there is a bound, texts that wait are counted only if their ids lie far enough apart. A close is always
 * taken, so that a session can end. */
/* The digits of a number that a macro names, for a statement. */
#define DIGITS(number) #number
#define DIGITS_OF(number) DIGITS(number)

#define TOO_MANY \
    "CREATE TRIGGER IF NOT EXISTS too_many BEFORE INSERT ON text" \
    " WHEN NEW.body IS NOT NULL AND (SELECT texts FROM bound) > 0" \
    " AND (SELECT max(id) FROM (SELECT max(id) AS id FROM text UNION ALL SELECT max(text) FROM sealed))" \
    " - (SELECT min(id) FROM (SELECT min(id) AS id FROM text UNION ALL SELECT min(text) FROM sealed))" \
    " >= (SELECT texts FROM bound) - 1" \
    " AND (SELECT count(*) FROM (SELECT 1 FROM text LIMIT (SELECT texts FROM bound)))" \
    " + (SELECT count(*) FROM (SELECT 1 FROM sealed LIMIT (SELECT texts FROM bound)))" \
    " >= (SELECT texts FROM bound)" \
    " BEGIN SELECT RAISE(ABORT, 'the outbox is full: as many texts wait as --max-waiting allows'); END;"

static const char tables[] =
    "CREATE TABLE IF NOT EXISTS session (name TEXT PRIMARY KEY, next INTEGER NOT NULL,"
    " carried INTEGER NOT NULL, at INTEGER NOT NULL) WITHOUT ROWID;"
    "CREATE TABLE IF NOT EXISTS text (id INTEGER PRIMARY KEY AUTOINCREMENT, session TEXT NOT NULL,"
    " body BLOB, since INTEGER NOT NULL DEFAULT (CAST(strftime('%s') AS INTEGER)),"
    " millisecond INTEGER NOT NULL DEFAULT (CAST(substr(strftime('%f'), 4) AS INTEGER)));"
    "CREATE TABLE IF NOT EXISTS closed (session TEXT PRIMARY KEY) WITHOUT ROWID;"
    "CREATE TRIGGER IF NOT EXISTS nothing_after_the_close BEFORE INSERT ON text"
    " WHEN EXISTS (SELECT 1 FROM closed WHERE session = NEW.session)"
    " BEGIN SELECT RAISE(ABORT, 'this session was closed: it takes no text'); END;"
    "CREATE TRIGGER IF NOT EXISTS the_close AFTER INSERT ON text WHEN NEW.body IS NULL"
    " BEGIN INSERT INTO closed VALUES (NEW.session); END;"
    "CREATE TRIGGER IF NOT EXISTS too_long BEFORE INSERT ON text"
    " WHEN length(CAST(NEW.body AS BLOB)) > " DIGITS_OF(TEXT_BYTES)
    " BEGIN SELECT RAISE(ABORT, 'a text has 1,000,000 bytes at most'); END;"
    "CREATE TABLE IF NOT EXISTS bound (one INTEGER PRIMARY KEY CHECK (one = 1), texts INTEGER NOT NULL);"
    "INSERT OR IGNORE INTO bound (one, texts) VALUES (1, 0);"
    TOO_MANY
    "CREATE TABLE IF NOT EXISTS stopped (session TEXT PRIMARY KEY, reason TEXT NOT NULL,"
    " since INTEGER NOT NULL) WITHOUT ROWID;"
    "CREATE TABLE IF NOT EXISTS frame (session TEXT NOT NULL, number INTEGER NOT NULL,"
    " frame BLOB NOT NULL, PRIMARY KEY (session, number));"
    "CREATE TABLE IF NOT EXISTS sealed (text INTEGER PRIMARY KEY, session TEXT NOT NULL,"
    " number INTEGER NOT NULL, part INTEGER NOT NULL, put INTEGER NOT NULL DEFAULT 0);"
    "CREATE INDEX IF NOT EXISTS sealed_number ON sealed (session, number);"
    "CREATE TABLE IF NOT EXISTS opened (name TEXT PRIMARY KEY, stream TEXT NOT NULL,"
    " turn INTEGER NOT NULL, before TEXT NOT NULL, shard INTEGER NOT NULL, since INTEGER NOT NULL,"
    " closed INTEGER NOT NULL, etype INTEGER NOT NULL, kvno INTEGER NOT NULL,"
    " wrapping INTEGER NOT NULL, key BLOB NOT NULL, UNIQUE (stream, turn)) WITHOUT ROWID;"
    "CREATE TABLE IF NOT EXISTS owner (one INTEGER PRIMARY KEY CHECK (one = 1),"
    " turn INTEGER NOT NULL);"
    "CREATE INDEX IF NOT EXISTS text_of ON text (session);"
    "INSERT OR IGNORE INTO owner (one, turn) VALUES (1, 0)";

/* Columns that files of an older version don't have. */
static const char *const columns[][2] = {
    { "session", "shard INTEGER NOT NULL DEFAULT -1" },
    { "session", "incarnation INTEGER NOT NULL DEFAULT 0" },
    { "session", "done INTEGER NOT NULL DEFAULT -1" },
    { "session", "history TEXT NOT NULL DEFAULT ''" },
    { "session", "stands INTEGER NOT NULL DEFAULT 0" },
    { "session", "stood INTEGER NOT NULL DEFAULT 0" },
    { "session", "stop BLOB NOT NULL DEFAULT x''" },
    { "session", "stop_since INTEGER NOT NULL DEFAULT 0" },
    { "frame", "history BLOB NOT NULL DEFAULT x''" },
    { "text", "since INTEGER NOT NULL DEFAULT 0" },
    { "text", "millisecond INTEGER NOT NULL DEFAULT 0" },
    { "sealed", "put INTEGER NOT NULL DEFAULT 0" },
    { "owner", "renewed INTEGER NOT NULL DEFAULT 0" },
};

/* A text, with the millisecond since 1970 in which it was put in, 0 if that isn't known. */
#define A_TEXT "SELECT id, session, body, iif(since = 0, 0, since * 1000 + millisecond) FROM text"
#define OPENED "name, stream, before, etype, turn, since, shard, closed, kvno, wrapping, key"

static const char *const sql[OUTBOX_STATEMENTS] = {
    [LOAD_SESSION] = ("SELECT next, carried, at, incarnation, shard, iif(done < 0, carried, done),"
                      " history, stands FROM session WHERE name = ?"),
    [SELECT_TEXTS] = A_TEXT " WHERE id > ? ORDER BY id LIMIT ?",
    [SELECT_WAITING] = A_TEXT " WHERE session = ? AND id <= ? ORDER BY id LIMIT ?",
    [HAS_TEXT] = "SELECT 1 FROM text WHERE id > ? LIMIT 1",
    [DROP_TEXTS] = "DELETE FROM text WHERE id >= ? AND id <= ?",
    [SELECT_HISTORY] = "SELECT history FROM frame WHERE session = ? AND number = ?",
    [SET_STANDS] = ("UPDATE session SET stands = ?1, stood = iif(?1 = 0, 0, CAST(strftime('%s') AS INTEGER))"
                    " WHERE name = ?2"),
    [SELECT_FRAMES] = ("SELECT number, frame FROM frame WHERE session = ? AND number >= ?"
                       " ORDER BY number LIMIT ?"),
    [DROP_FRAMES] = "DELETE FROM frame WHERE session = ? AND number < ?",
    [DROP_SEALED] = "DELETE FROM sealed WHERE session = ? AND number < ? AND note_delay(put)",
    [SET_NEXT] = ("INSERT INTO session (name, next, carried, at, shard, done)"
                  " SELECT ?2, ?1, ?5, 0, ?4, ?5"
                  " WHERE ?3 = ?6 OR EXISTS (SELECT 1 FROM session WHERE name = ?2)"
                  " ON CONFLICT (name) DO UPDATE SET next = ?1 WHERE next = ?3"),
    /* The same where there is a row, as mostly: SQLite keeps no journal of this statement. */
    [MOVE_NEXT] = "UPDATE session SET next = ?1 WHERE name = ?2 AND next = ?3",
    [SET_CARRIED] = ("UPDATE session SET carried = ?1, at = ?2, incarnation = ?3, shard = ?4,"
                     " done = ?6, history = ?7 WHERE name = ?5"),
    [SELECT_OWNER] = "SELECT turn FROM owner",
    [SELECT_SENDING] = "SELECT DISTINCT session FROM frame",
    [SELECT_STOPS] = "SELECT name FROM session WHERE stop != x''",
    [SELECT_STOP] = "SELECT stop, stop_since FROM session WHERE name = ? AND stop != x''",
    [ADD_PROGRESS] = ("INSERT INTO session (name, next, carried, at, shard, done) VALUES (?1, ?2, ?3, 0, ?4, ?3)"
                     " ON CONFLICT DO NOTHING"),
    [SET_STOP] = ("UPDATE session SET stop_since = iif(stop = x'', CAST(strftime('%s') AS INTEGER), stop_since),"
                  " stop = ?1 WHERE name = ?2"),
    [DROP_STOPPED] = "DELETE FROM stopped",
    [END_STOPPED] = "DELETE FROM stopped WHERE session = ?",
    [COUNT_STOPPED] = "SELECT count(*) FROM stopped",
    [ADD_STOPPED] = ("INSERT INTO stopped VALUES (?1, ?2, iif(?3 > 0, ?3, CAST(strftime('%s') AS INTEGER)))"
                     " ON CONFLICT (session) DO UPDATE SET reason = ?2"),
    [COUNT_TEXTS] = ("SELECT (SELECT count(*) FROM (SELECT 1 FROM text LIMIT 100000 + (SELECT texts FROM bound)))"
                     " + (SELECT count(*) FROM (SELECT 1 FROM sealed LIMIT 100000 + (SELECT texts FROM bound)))"),
    [OLDEST_TEXT] = ("SELECT since FROM (SELECT since, session FROM text ORDER BY id LIMIT 10000)"
                     " WHERE session NOT IN (SELECT session FROM stopped) LIMIT 1"),
    [ADD_OPENED] = ("INSERT OR REPLACE INTO opened (name, stream, before, etype, turn, since, shard,"
                    " closed, kvno, wrapping, key) VALUES (?, ?, ?, ?, ?, ?, ?, ?, ?, ?, ?)"),
    [SELECT_OPENED] = "SELECT " OPENED " FROM opened WHERE name = ?",
    [SELECT_STREAM] = "SELECT " OPENED " FROM opened WHERE stream = ? ORDER BY turn DESC LIMIT 1",
    [SELECT_WRAPPED] = ("SELECT " OPENED " FROM opened WHERE kvno != ?1 AND name > ?2"
                        " ORDER BY name LIMIT 1"),
    [SET_RENEWED] = "UPDATE owner SET renewed = ?",
    [SELECT_RENEWED] = "SELECT renewed FROM owner",
    [CLOSE_OPENED] = "UPDATE opened SET closed = 1 WHERE name = ?",
    [SELECT_ENDED] = ("SELECT name, shard FROM opened WHERE stream = ?1 AND turn < ?2 - 1 AND NOT EXISTS"
                      " (SELECT 1 FROM opened AS near JOIN frame ON frame.session = near.name"
                      " WHERE near.stream = ?1 AND near.turn IN (opened.turn, opened.turn + 1)) LIMIT ?3"),
    [DROP_OPENED] = "DELETE FROM opened WHERE name = ?",
    [FORGET_SESSION] = "DELETE FROM session WHERE name = ? AND done = next",
};

static const char *const rows_sql[OUTBOX_ROWS] = {
    [ADD_FRAME] = "INSERT INTO frame (session, number, frame, history) VALUES (?, ?, ?, ?)",
    [ADD_SEALED] = "INSERT INTO sealed (text, session, number, part, put) VALUES (?, ?, ?, ?, ?)",
};

/* The number that a question has for its answer, 0 if there is none. */
static enum answer read_number(struct outbox *o, enum outbox_statement question, uint64_t *number)
{
    struct statement *select = &o->statements[question];
    enum answer row = step_row(select);
    *number = row == ANSWER_FOUND ? (uint64_t)sqlite3_column_int64(select->at, 0) : 0;
    end_rows(select);
    return row != ANSWER_FAULT ? ANSWER_DONE : ANSWER_FAULT;
}

/* ---- How long texts took */

static void add_delay(struct delays *delays, double seconds)
{
    static const double bounds[DELAY_BOUNDS_COUNT] = { DELAY_BOUNDS(AND_COMMA) };
    unsigned i = 0;
    while (i < DELAY_BOUNDS_COUNT && seconds > bounds[i])
        i++;
    delays->counts[i]++;
    delays->seconds += seconds;
}

static void join_delays(struct delays *delays, const struct delays *more)
{
    unsigned i;
    for (i = 0; i <= DELAY_BOUNDS_COUNT; i++)
        delays->counts[i] += more->counts[i];
    delays->seconds += more->seconds;
}

/* The function of SQL note_delay(put), which is true of each row, and counts a text whose insertion
 * is known. The clock may have been set back since: then it took no time. */
static void note_delay(sqlite3_context *context, int count, sqlite3_value **values)
{
    struct outbox *o = sqlite3_user_data(context);
    const sqlite3_int64 put = count == 1 ? sqlite3_value_int64(values[0]) : 0;
    const uint64_t moment = o->clock.seconds * 1000 + o->clock.microseconds / 1000;
    const sqlite3_int64 now = (sqlite3_int64)moment;
    if (put > 0)
        add_delay(&o->taken, now > put ? (double)(now - put) / 1e3 : 0);
    sqlite3_result_int(context, 1);
}

static int add_function(struct outbox *o)
{
    if (sqlite3_create_function(o->db, "note_delay", 1, SQLITE_UTF8, o, note_delay, NULL, NULL)
        == SQLITE_OK)
        return 0;
    log_system("out_of_memory", "outbox");
    return -1;
}

/* ---- */

static enum answer complete(struct outbox *o)
{
    if (begin_writing(o->db) != ANSWER_DONE)
        return ANSWER_FAULT;
    if (add_columns(o->db, columns, sizeof columns / sizeof *columns) == ANSWER_DONE
        && run(o->db, "COMMIT") == ANSWER_DONE)
        return ANSWER_DONE;
    outbox_rollback(o);
    return ANSWER_FAULT;
}

int outbox_is_there(const struct outbox *o)
{
    uint64_t device = 0, inode = 0;
    if (find_file(o->path, &device, &inode) == 0 && device == o->device && inode == o->inode)
        return 1;
    log_fact(LEVEL_ERROR, "outbox_replaced", field_text("file", o->path),
             field_text("text", "the file at this place has changed: this sender ends"));
    return 0;
}

enum answer outbox_open(struct outbox *o, const char *path)
{
    memset(o, 0, sizeof *o);
    if (!copy_text(o->path, sizeof o->path, path)) {
        log_fact(LEVEL_ERROR, "outbox_name_too_long", field_text("file", path));
        return ANSWER_FAULT;
    }
    o->db = open_database(path, tables);
    if (o->db == NULL || find_file(path, &o->device, &o->inode) != 0 || complete(o) != ANSWER_DONE
        || add_function(o) != 0
        || prepare_all(o->db, o->statements, sql, OUTBOX_STATEMENTS) != ANSWER_DONE
        || prepare_rows(o->db, &o->rows[ADD_FRAME], rows_sql[ADD_FRAME]) != ANSWER_DONE
        || prepare_rows(o->db, &o->rows[ADD_SEALED], rows_sql[ADD_SEALED]) != ANSWER_DONE)
        return ANSWER_FAULT;
    if (begin_writing(o->db) != ANSWER_DONE || run(o->db, "UPDATE owner SET turn = turn + 1") != ANSWER_DONE
        || outbox_drop_stopped(o) != ANSWER_DONE)
        return ANSWER_FAULT;
    return read_number(o, SELECT_OWNER, &o->turn) == ANSWER_DONE && o->turn > 0 ? run(o->db, "COMMIT") : ANSWER_FAULT;
}

enum answer outbox_bound(struct outbox *o, unsigned texts)
{
    char text[64];
    write_whole(text, sizeof text, "UPDATE bound SET texts = %u", texts);
    return run(o->db, text);
}

void outbox_close(struct outbox *o)
{
    finalize(o->statements, OUTBOX_STATEMENTS);
    finalize(&o->rows[ADD_FRAME].all, 1);
    finalize(&o->rows[ADD_SEALED].all, 1);
    close_database(o->db);
}

enum answer outbox_load(struct outbox *o, const struct session *session, struct outbox_progress *it)
{
    struct statement *select = &o->statements[LOAD_SESSION];
    const char *history;
    enum answer row;
    bind_text(select, 1, session->name);
    row = step_row(select);
    *it = (struct outbox_progress){ session->first, session->first - session->has_opening, 0, 0,
                                    session->first - session->has_opening,
                                    (int32_t)session->shard, KRBRELAY_STANDS_NOT, { .is_known = 0 } };
    if (row == ANSWER_FOUND) {
        it->next = (uint64_t)sqlite3_column_int64(select->at, 0);
        it->carried = (uint64_t)sqlite3_column_int64(select->at, 1);
        it->at = (uint64_t)sqlite3_column_int64(select->at, 2);
        it->list = (uint64_t)sqlite3_column_int64(select->at, 3);
        it->shard = sqlite3_column_int(select->at, 4);
        it->done = (uint64_t)sqlite3_column_int64(select->at, 5);
        history = (const char *)sqlite3_column_text(select->at, 6);
        it->stands = (uint32_t)sqlite3_column_int(select->at, 7);
        if (history == NULL)
            row = ANSWER_FAULT; /* there was no memory for it */
        else
            history_read(&it->history, history);
    }
    if (it->done <= session->first) /* no frame: an opening is none of them */
        it->history = (struct history){ .is_known = 1 };
    end_rows(select);
    return row != ANSWER_FAULT ? ANSWER_DONE : ANSWER_FAULT;
}

/* Passes each name that a statement gives. */
static enum answer pass_names(struct statement *select, outbox_take *take, void *given)
{
    enum answer answer = ANSWER_DONE;
    enum answer row;
    while (answer == ANSWER_DONE && (row = step_row(select)) != ANSWER_DONE) {
        const char *name = row == ANSWER_FOUND ? (const char *)sqlite3_column_text(select->at, 0) : NULL;
        answer = name == NULL || take(given, name) != 0 ? ANSWER_FAULT : ANSWER_DONE;
    }
    end_rows(select);
    return answer;
}

enum answer outbox_sessions(struct outbox *o, outbox_take *take, void *given)
{
    return pass_names(&o->statements[SELECT_SENDING], take, given);
}

enum answer outbox_stops(struct outbox *o, outbox_take *take, void *given)
{
    return pass_names(&o->statements[SELECT_STOPS], take, given);
}

int outbox_may_have_text(struct outbox *o, sqlite3_int64 after)
{
    enum answer row;
    bind_number(&o->statements[HAS_TEXT], 1, after);
    row = step_row(&o->statements[HAS_TEXT]);
    end_rows(&o->statements[HAS_TEXT]);
    return row != ANSWER_DONE;
}

enum answer outbox_count_texts(struct outbox *o, uint64_t *count)
{
    return read_number(o, COUNT_TEXTS, count);
}

enum answer outbox_oldest_text(struct outbox *o, int *is_there, uint64_t *second)
{
    struct statement *select = &o->statements[OLDEST_TEXT];
    enum answer row = step_row(select);
    *is_there = row == ANSWER_FOUND;
    *second = row == ANSWER_FOUND ? (uint64_t)sqlite3_column_int64(select->at, 0) : 0;
    end_rows(select);
    return row != ANSWER_FAULT ? ANSWER_DONE : ANSWER_FAULT;
}

enum answer outbox_count_stopped(struct outbox *o, uint64_t *count)
{
    return read_number(o, COUNT_STOPPED, count);
}

enum answer outbox_renewed(struct outbox *o, uint64_t *second)
{
    return read_number(o, SELECT_RENEWED, second);
}

enum answer outbox_owned(struct outbox *o)
{
    uint64_t turn;
    if (read_number(o, SELECT_OWNER, &turn) != ANSWER_DONE)
        return ANSWER_AGAIN;
    return turn == o->turn ? ANSWER_DONE : ANSWER_TAKEN;
}

/* ---- A transaction */

enum answer outbox_begin(struct outbox *o)
{
    enum answer owned;
    if (begin_writing(o->db) != ANSWER_DONE)
        return ANSWER_AGAIN;
    owned = outbox_owned(o);
    if (owned != ANSWER_DONE)
        outbox_rollback(o);
    return owned;
}

enum answer outbox_set_renewed(struct outbox *o, uint64_t second)
{
    enum answer begun = outbox_begin(o);
    if (begun != ANSWER_DONE)
        return begun;
    bind_number(&o->statements[SET_RENEWED], 1, (sqlite3_int64)second);
    if (step_once(&o->statements[SET_RENEWED]) == ANSWER_DONE && outbox_commit(o) == ANSWER_DONE)
        return ANSWER_DONE;
    outbox_rollback(o);
    return ANSWER_AGAIN;
}

struct statement *outbox_select_texts(struct outbox *o, sqlite3_int64 after, size_t limit)
{
    struct statement *select = &o->statements[SELECT_TEXTS];
    bind_number(select, 1, after);
    bind_number(select, 2, (sqlite3_int64)limit);
    return select;
}

enum answer outbox_next_text(struct statement *select, struct waiting_text *text)
{
    enum answer row = step_row(select);
    if (row != ANSWER_FOUND)
        return row;
    text->id = sqlite3_column_int64(select->at, 0);
    text->session = (const char *)sqlite3_column_text(select->at, 1);
    text->body = sqlite3_column_blob(select->at, 2);
    text->len = (size_t)sqlite3_column_bytes(select->at, 2);
    text->put = sqlite3_column_int64(select->at, 3);
    if (check_columns(select) != ANSWER_DONE)
        return ANSWER_FAULT;
    if (text->body == NULL && sqlite3_column_type(select->at, 2) != SQLITE_NULL)
        text->body = (const uint8_t *)""; /* a text of no bytes isn't the close */
    return text->session != NULL ? ANSWER_FOUND : ANSWER_FAULT;
}

struct statement *outbox_select_waiting(struct outbox *o, const char *name, sqlite3_int64 to, size_t limit)
{
    struct statement *select = &o->statements[SELECT_WAITING];
    bind_text(select, 1, name);
    bind_number(select, 2, to);
    bind_number(select, 3, (sqlite3_int64)limit);
    return select;
}

enum answer outbox_drop_texts(struct outbox *o, sqlite3_int64 first, sqlite3_int64 last)
{
    bind_number(&o->statements[DROP_TEXTS], 1, first);
    bind_number(&o->statements[DROP_TEXTS], 2, last);
    return step_once(&o->statements[DROP_TEXTS]);
}

enum answer outbox_add_frame(struct outbox *o, const char *session, uint64_t number, const uint8_t *frame,
                             size_t len, const struct history *history)
{
    struct rows *add = &o->rows[ADD_FRAME];
    int at = next_row(add);
    bind_text(&add->all, at + 1, session);
    bind_number(&add->all, at + 2, (sqlite3_int64)number);
    bind_copy(add, at + 3, frame, len);
    bind_copy(add, at + 4, history->bytes, history->is_known ? sizeof history->bytes : 0);
    return add_row(add);
}

enum answer outbox_add_sealed(struct outbox *o, const struct waiting_text *text, const char *session,
                              uint64_t number, unsigned part)
{
    struct rows *add = &o->rows[ADD_SEALED];
    int at = next_row(add);
    bind_number(&add->all, at + 1, text->id);
    bind_text(&add->all, at + 2, session);
    bind_number(&add->all, at + 3, (sqlite3_int64)number);
    bind_number(&add->all, at + 4, part);
    bind_number(&add->all, at + 5, text->put);
    return add_row(add);
}

enum answer outbox_insert(struct outbox *o)
{
    return insert_rows(&o->rows[ADD_FRAME]) == ANSWER_DONE && insert_rows(&o->rows[ADD_SEALED]) == ANSWER_DONE
           ? ANSWER_DONE : ANSWER_FAULT;
}

enum answer outbox_set_next(struct outbox *o, const struct session *session, uint64_t from, uint64_t to)
{
    struct statement *move = &o->statements[MOVE_NEXT], *set = &o->statements[SET_NEXT];
    bind_number(move, 1, (sqlite3_int64)to);
    bind_text(move, 2, session->name);
    bind_number(move, 3, (sqlite3_int64)from);
    if (step_once(move) != ANSWER_DONE)
        return ANSWER_FAULT;
    if (sqlite3_changes(o->db) == 1)
        return ANSWER_DONE;
    bind_number(set, 1, (sqlite3_int64)to);
    bind_text(set, 2, session->name);
    bind_number(set, 3, (sqlite3_int64)from);
    bind_number(set, 4, session->shard);
    bind_number(set, 5, session->first - session->has_opening);
    bind_number(set, 6, session->first);
    return step_once(set) == ANSWER_DONE && sqlite3_changes(o->db) == 1 ? ANSWER_DONE : ANSWER_FAULT;
}

/* Deletes what the outbox has of a session below a number. */
static enum answer drop_below(struct statement *drop, const char *session, uint64_t number)
{
    bind_text(drop, 1, session);
    bind_number(drop, 2, (sqlite3_int64)number);
    return step_once(drop);
}

enum answer outbox_set_carried(struct outbox *o, const char *session, const struct outbox_progress *it)
{
    struct statement *set = &o->statements[SET_CARRIED];
    char history[HISTORY_TEXT];
    history_write(&it->history, history);
    bind_text(set, 7, history);
    bind_number(set, 1, (sqlite3_int64)it->carried);
    bind_number(set, 2, (sqlite3_int64)it->at);
    bind_number(set, 3, (sqlite3_int64)it->list);
    bind_number(set, 4, it->shard);
    bind_text(set, 5, session);
    bind_number(set, 6, (sqlite3_int64)it->done);
    return step_once(set);
}

enum answer outbox_drop_done(struct outbox *o, const char *session, uint64_t done)
{
    o->clock = read_clock();
    return drop_below(&o->statements[DROP_FRAMES], session, done) == ANSWER_DONE
                   && drop_below(&o->statements[DROP_SEALED], session, done) == ANSWER_DONE
               ? ANSWER_DONE : ANSWER_FAULT;
}

enum answer outbox_add_stopped(struct outbox *o, const char *session, const char *reason, uint64_t since)
{
    struct statement *add = &o->statements[ADD_STOPPED];
    bind_text(add, 1, session);
    bind_text(add, 2, reason);
    bind_number(add, 3, (sqlite3_int64)since);
    return step_once(add);
}

enum answer outbox_set_stop(struct outbox *o, const struct session *session, const struct stop *stop)
{
    struct statement *add = &o->statements[ADD_PROGRESS], *set = &o->statements[SET_STOP];
    bind_text(add, 1, session->name);
    bind_number(add, 2, session->first);
    bind_number(add, 3, session->first - session->has_opening);
    bind_number(add, 4, session->shard);
    bind_bytes(set, 1, stop->receipt, stop->len);
    bind_text(set, 2, session->name);
    return step_once(add) == ANSWER_DONE ? step_once(set) : ANSWER_FAULT;
}

enum answer outbox_find_stop(struct outbox *o, const char *session, struct stop *stop)
{
    struct statement *select = &o->statements[SELECT_STOP];
    enum answer row;
    *stop = (struct stop){ .len = 0 };
    bind_text(select, 1, session);
    row = step_row(select);
    if (row == ANSWER_FOUND && sqlite3_column_bytes(select->at, 0) <= RECEIPT) {
        const void *receipt = sqlite3_column_blob(select->at, 0);
        stop->len = (size_t)sqlite3_column_bytes(select->at, 0);
        if (receipt != NULL)
            memcpy(stop->receipt, receipt, stop->len);
        row = check_columns(select) == ANSWER_DONE ? row : ANSWER_FAULT;
        stop->since = (uint64_t)sqlite3_column_int64(select->at, 1);
    }
    end_rows(select);
    return row != ANSWER_FAULT ? ANSWER_DONE : ANSWER_FAULT;
}

enum answer outbox_end_stopped(struct outbox *o, const char *session)
{
    bind_text(&o->statements[END_STOPPED], 1, session);
    return step_once(&o->statements[END_STOPPED]);
}

enum answer outbox_drop_stopped(struct outbox *o)
{
    return step_once(&o->statements[DROP_STOPPED]);
}

enum answer outbox_commit(struct outbox *o)
{
    if (outbox_insert(o) != ANSWER_DONE || run(o->db, "COMMIT") != ANSWER_DONE)
        return ANSWER_FAULT;
    join_delays(&o->delays, &o->taken);
    o->taken = (struct delays){ .seconds = 0 };
    return ANSWER_DONE;
}

void outbox_rollback(struct outbox *o)
{
    forget_rows(&o->rows[ADD_FRAME]);
    forget_rows(&o->rows[ADD_SEALED]);
    o->taken = (struct delays){ .seconds = 0 };
    roll_back(o->db);
}

/* ---- Frames */

void outbox_select_frames(struct outbox *o, const char *session, uint64_t from,
                          unsigned limit)
{
    struct statement *select = &o->statements[SELECT_FRAMES];
    bind_text(select, 1, session);
    bind_number(select, 2, (sqlite3_int64)from);
    bind_number(select, 3, limit);
}

enum answer outbox_next_frame(struct outbox *o, uint64_t *number, const uint8_t **frame, size_t *len)
{
    struct statement *select = &o->statements[SELECT_FRAMES];
    enum answer row = step_row(select);
    if (row != ANSWER_FOUND)
        return row;
    *number = (uint64_t)sqlite3_column_int64(select->at, 0);
    *frame = sqlite3_column_blob(select->at, 1);
    *len = (size_t)sqlite3_column_bytes(select->at, 1);
    return *frame != NULL ? ANSWER_FOUND : ANSWER_FAULT;
}

void outbox_end_frames(struct outbox *o)
{
    end_rows(&o->statements[SELECT_FRAMES]);
}

/* Adds the frames of a session from a number up to another. It isn't known where one of them isn't there. */
static enum answer add_frames(struct outbox *o, const char *session, uint64_t from, uint64_t to,
                              struct history *history)
{
    const uint8_t *frame;
    uint64_t number;
    size_t len;
    enum answer row = ANSWER_FOUND;
    outbox_select_frames(o, session, from, UINT32_MAX);
    while (row == ANSWER_FOUND && history->is_known && from < to) {
        row = outbox_next_frame(o, &number, &frame, &len);
        if (row == ANSWER_FOUND && number == from++)
            row = history_add(history, frame, len) == 0 ? ANSWER_FOUND : ANSWER_FAULT;
        else
            history->is_known = 0;
    }
    outbox_end_frames(o);
    return row != ANSWER_FAULT ? ANSWER_DONE : ANSWER_FAULT;
}

/* The history beside a frame, which isn't known if there is none. */
static enum answer read_history(struct outbox *o, const char *session, uint64_t number, struct history *history)
{
    struct statement *select = &o->statements[SELECT_HISTORY];
    const void *bytes = NULL;
    enum answer row;
    bind_text(select, 1, session);
    bind_number(select, 2, (sqlite3_int64)number);
    row = step_row(select);
    if (row == ANSWER_FOUND) {
        bytes = sqlite3_column_blob(select->at, 0);
        row = check_columns(select) == ANSWER_DONE ? row : ANSWER_FAULT;
    }
    history->is_known = bytes != NULL && sqlite3_column_bytes(select->at, 0) == (int)sizeof history->bytes;
    if (history->is_known)
        memcpy(history->bytes, bytes, sizeof history->bytes);
    end_rows(select);
    return row != ANSWER_FAULT ? ANSWER_DONE : ANSWER_FAULT;
}

enum answer outbox_history(struct outbox *o, const struct session *session, uint64_t from,
                           const struct history *history, uint64_t to, struct history *found)
{
    *found = (struct history){ .is_known = 1 };
    if (to <= session->first)
        return ANSWER_DONE; /* of no frames: an opening is none of them */
    if (to > from && read_history(o, session->name, to - 1, found) != ANSWER_DONE)
        return ANSWER_FAULT;
    if (to > from && found->is_known)
        return ANSWER_DONE;
    *found = *history;
    return add_frames(o, session->name, from > session->first ? from : session->first, to, found);
}

enum answer outbox_set_stands(struct outbox *o, const char *session, uint32_t stands)
{
    bind_number(&o->statements[SET_STANDS], 1, stands);
    bind_text(&o->statements[SET_STANDS], 2, session);
    return step_once(&o->statements[SET_STANDS]);
}
