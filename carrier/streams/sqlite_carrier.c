/* A carrier of one SQLite file, which needs no server: for one machine, and to begin with. All its
 * shards are one list, whose number is drawn when the file is made. */
#include "carrier.h"
#include "database.h"
#include "log.h"
#include "text.h"

#include <stdio.h>
#include <stdlib.h>
#include <string.h>

enum { PENDING = 4096 };
enum {
    SELECT, SELECT_END, COUNT, ADD_RECEIPT, SELECT_RECEIPTS, DROP_RECEIPT, STATEMENTS
};

struct sqlite_carrier {
    struct carrier base;
    sqlite3 *db;
    struct statement statements[STATEMENTS];
    struct rows added;     /* frames that were published, and aren't inserted yet */
    uint64_t list;
    /* What was published since the last confirmations, in one transaction. */
    struct confirmed pending[PENDING];
    size_t stored, confirmed; /* so many of them are pending, so many of these are confirmed */
    int is_committed;
    /* Where the reader stands, and the frames of its last fetch. */
    unsigned shard;
    uint64_t after;
    sqlite3_int64 receipt; /* the last one that was given */
    uint8_t *frames;
    size_t room;
};

static const char tables[] =
    "CREATE TABLE IF NOT EXISTS carried (offset INTEGER PRIMARY KEY AUTOINCREMENT,"
    " shard INTEGER NOT NULL, session TEXT NOT NULL, frame BLOB NOT NULL);"
    "CREATE INDEX IF NOT EXISTS of_shard ON carried (shard, offset);"
    "CREATE TABLE IF NOT EXISTS receipt (session TEXT PRIMARY KEY, turn INTEGER NOT NULL,"
    " receipt BLOB NOT NULL) WITHOUT ROWID;"
    "CREATE UNIQUE INDEX IF NOT EXISTS of_turn ON receipt (turn);"
    "CREATE TABLE IF NOT EXISTS incarnation (one INTEGER PRIMARY KEY CHECK (one = 1),"
    " number INTEGER NOT NULL);"
    "INSERT OR IGNORE INTO incarnation VALUES (1, 1 + (random() & 9007199254740991))";

static const char *const sql[STATEMENTS] = {
    [SELECT] = "SELECT offset, session, frame FROM carried WHERE shard = ? AND offset > ?"
               " ORDER BY offset LIMIT ?",
    [COUNT] = "SELECT count(*) FROM (SELECT 1 FROM carried WHERE shard = ? AND offset > ?"
              " LIMIT 100000)",
    [ADD_RECEIPT] = ("INSERT INTO receipt VALUES (?1,"
                     " 1 + (SELECT coalesce(max(turn), 0) FROM receipt), ?2) ON CONFLICT (session) DO UPDATE SET turn = excluded.turn,"
                     " receipt = excluded.receipt"),
    [SELECT_RECEIPTS] = "SELECT turn, session, receipt FROM receipt WHERE turn > ? ORDER BY turn",
    /* but for the last one, so that the next has a turn of its own */
    [DROP_RECEIPT] = "DELETE FROM receipt WHERE session = ? AND turn < (SELECT max(turn) FROM receipt)",
    [SELECT_END] = "SELECT coalesce(max(offset), 0) FROM carried WHERE shard = ?",
};

static const char insert[] = "INSERT INTO carried (shard, session, frame) VALUES (?, ?, ?)";

static enum answer find_list(struct carrier *base, unsigned shard, uint64_t *list, uint64_t *end)
{
    struct sqlite_carrier *c = (struct sqlite_carrier *)base;
    struct statement *select = &c->statements[SELECT_END];
    int has_row;
    bind_number(select, 1, shard);
    has_row = step_row(select) == ANSWER_FOUND;
    *end = has_row ? (uint64_t)sqlite3_column_int64(select->at, 0) : 0;
    end_rows(select);
    *list = c->list;
    return has_row ? ANSWER_DONE : ANSWER_FAULT;
}

/* The file is there, so each of its shards is. */
static enum answer make(struct carrier *base, unsigned shard, uint64_t *list)
{
    (void)shard;
    *list = ((struct sqlite_carrier *)base)->list;
    return ANSWER_DONE;
}

/* ---- Publishing */

/* Begins a transaction, unless one is open. */
static enum answer begin_publishing(struct sqlite_carrier *c)
{
    if (c->is_committed && c->confirmed == c->stored) {
        c->stored = c->confirmed = 0;
        c->is_committed = 0;
    }
    if (c->is_committed || c->stored == PENDING)
        return ANSWER_FAULT; /* first the confirmations are to be taken */
    return c->stored == 0 ? begin_writing(c->db) : ANSWER_DONE;
}

/* Gives up what was published since the last confirmations. */
static enum answer give_up(struct sqlite_carrier *c)
{
    forget_rows(&c->added);
    roll_back(c->db);
    c->stored = 0;
    return ANSWER_FAULT;
}

/* The frames that were inserted last have offsets one after the other. */
static void note_offsets(struct sqlite_carrier *c, int count)
{
    uint64_t last = (uint64_t)sqlite3_last_insert_rowid(c->db);
    for (; count > 0; count--)
        c->pending[c->stored - (size_t)count].offset = last + 1 - (uint64_t)count;
}

static enum answer publish(struct carrier *base, unsigned shard, const char *session, uint32_t tag,
                           uint64_t number, const uint8_t *frame, size_t len)
{
    struct sqlite_carrier *c = (struct sqlite_carrier *)base;
    struct rows *rows = &c->added;
    int at = next_row(rows), count = rows->count + 1;
    if (begin_publishing(c) != ANSWER_DONE)
        return ANSWER_FAULT;
    bind_number(&rows->all, at + 1, shard);
    bind_name(rows, at + 2, session);
    bind_copy(rows, at + 3, frame, len);
    c->pending[c->stored++] = (struct confirmed){ tag, number, 0 };
    if (add_row(rows) != ANSWER_DONE)
        return give_up(c);
    if (rows->count == 0)
        note_offsets(c, count);
    return ANSWER_DONE;
}

static enum answer confirmed(struct carrier *base, struct confirmed *list, size_t room, size_t *count)
{
    struct sqlite_carrier *c = (struct sqlite_carrier *)base;
    *count = 0;
    if (!c->is_committed && c->stored > 0) {
        int last = c->added.count;
        if (insert_rows(&c->added) != ANSWER_DONE)
            return give_up(c);
        note_offsets(c, last);
        if (run(c->db, "COMMIT") != ANSWER_DONE)
            return give_up(c);
        c->is_committed = 1;
    }
    while (*count < room && c->confirmed < c->stored)
        list[(*count)++] = c->pending[c->confirmed++];
    return ANSWER_DONE;
}

/* ---- Reading */

static void seek(struct carrier *base, unsigned shard, uint64_t offset)
{
    struct sqlite_carrier *c = (struct sqlite_carrier *)base;
    c->shard = shard;
    c->after = offset;
}

/* Room for a fetch's first frame, which may be longer than those before. */
static enum answer grow(struct sqlite_carrier *c, size_t len)
{
    uint8_t *more = realloc(c->frames, len);
    if (more == NULL) {
        log_system("out_of_memory", "carrier");
        return ANSWER_FAULT;
    }
    c->frames = more;
    c->room = len;
    return ANSWER_DONE;
}

/* Copies the frame of a row after the first `used` bytes; -1 where there is no room, or a fault, which is reported. */
static enum answer copy_row(struct sqlite_carrier *c, const struct statement *select, struct carried *it,
                            size_t used)
{
    const void *frame = sqlite3_column_blob(select->at, 2);
    const char *session = (const char *)sqlite3_column_text(select->at, 1);
    it->len = (size_t)sqlite3_column_bytes(select->at, 2);
    if (check_columns(select) != ANSWER_DONE)
        return ANSWER_FAULT;
    if (it->len > c->room - used && (used > 0 || grow(c, it->len) != ANSWER_DONE))
        return ANSWER_FAULT;
    it->offset = (uint64_t)sqlite3_column_int64(select->at, 0);
    copy_cut(it->session, sizeof it->session, session);
    it->frame = c->frames + used;
    if (it->len > 0)
        memcpy(c->frames + used, frame, it->len);
    return ANSWER_DONE;
}

/* What stands after the reader now. */
static enum answer fetch(struct carrier *base, struct carried *list, size_t limit, size_t *count)
{
    struct sqlite_carrier *c = (struct sqlite_carrier *)base;
    struct statement *select = &c->statements[SELECT];
    size_t used = 0;
    enum answer row = ANSWER_DONE;
    *count = 0;
    bind_number(select, 1, c->shard);
    bind_number(select, 2, (sqlite3_int64)c->after);
    bind_number(select, 3, (sqlite3_int64)limit);
    while (*count < limit && (row = step_row(select)) == ANSWER_FOUND) {
        if (copy_row(c, select, &list[*count], used) != ANSWER_DONE)
            break; /* the rest comes with the next fetch */
        used += list[(*count)++].len;
    }
    end_rows(select);
    if (*count > 0)
        c->after = list[*count - 1].offset;
    return *count > 0 ? ANSWER_DONE : row == ANSWER_DONE ? row : ANSWER_FAULT; /* a row that isn't copied came, too */
}

static enum answer behind(struct carrier *base, uint64_t *frames)
{
    struct sqlite_carrier *c = (struct sqlite_carrier *)base;
    struct statement *count = &c->statements[COUNT];
    enum answer row;
    bind_number(count, 1, c->shard);
    bind_number(count, 2, (sqlite3_int64)c->after);
    row = step_row(count);
    if (row == ANSWER_FOUND)
        *frames = (uint64_t)sqlite3_column_int64(count->at, 0);
    end_rows(count);
    return row == ANSWER_FOUND ? ANSWER_DONE : ANSWER_FAULT;
}

/* ---- Receipts */

static enum answer add_receipts(struct sqlite_carrier *c, const struct carried *list, size_t count)
{
    struct statement *add = &c->statements[ADD_RECEIPT];
    size_t i;
    for (i = 0; i < count; i++) {
        bind_text(add, 1, list[i].session);
        bind_bytes(add, 2, list[i].frame, list[i].len);
        if (step_once(add) != ANSWER_DONE)
            return ANSWER_FAULT;
    }
    return ANSWER_DONE;
}

static enum answer acknowledge(struct carrier *base, unsigned shard, const struct carried *list,
                               size_t count)
{
    struct sqlite_carrier *c = (struct sqlite_carrier *)base;
    (void)shard;
    if (begin_writing(c->db) != ANSWER_DONE)
        return ANSWER_FAULT;
    if (add_receipts(c, list, count) == ANSWER_DONE && run(c->db, "COMMIT") == ANSWER_DONE)
        return ANSWER_DONE;
    roll_back(c->db);
    return ANSWER_FAULT;
}

/* Passes the receipts that a statement gives. */
static enum answer give_receipts(struct statement *select, sqlite3_int64 *turn, carrier_receipt *take,
                                 void *given)
{
    enum answer row;
    while ((row = step_row(select)) == ANSWER_FOUND) {
        const char *session = (const char *)sqlite3_column_text(select->at, 1);
        const void *receipt = sqlite3_column_blob(select->at, 2);
        if (check_columns(select) != ANSWER_DONE) {
            row = ANSWER_FAULT;
            break;
        }
        *turn = sqlite3_column_int64(select->at, 0);
        if (session != NULL && receipt != NULL)
            take(given, session, receipt, (size_t)sqlite3_column_bytes(select->at, 2));
    }
    end_rows(select);
    return row;
}

static enum answer receipts(struct carrier *base, carrier_receipt *take, void *given)
{
    struct sqlite_carrier *c = (struct sqlite_carrier *)base;
    bind_number(&c->statements[SELECT_RECEIPTS], 1, c->receipt);
    return give_receipts(&c->statements[SELECT_RECEIPTS], &c->receipt, take, given);
}

static void forget(struct carrier *base, unsigned shard, const char *session)
{
    struct statement *drop = &((struct sqlite_carrier *)base)->statements[DROP_RECEIPT];
    (void)shard;
    bind_text(drop, 1, session);
    (void)step_once(drop); /* a fault is reported, and the receipt stays */
}

/* ---- */

/* Whether the file is away or closed. */
static int never(struct carrier *base)
{
    (void)base;
    return 0;
}

static void close_carrier(struct carrier *base)
{
    struct sqlite_carrier *c = (struct sqlite_carrier *)base;
    finalize(c->statements, STATEMENTS);
    finalize(&c->added.all, 1);
    close_database(c->db);
    free(c->frames);
    free(c);
}

static enum answer open_carrier(struct sqlite_carrier *c, const char *path)
{
    struct statement select = { NULL, 0 };
    c->room = 1 << 20;
    c->frames = malloc(c->room);
    c->db = open_database(path, tables);
    if (c->frames == NULL || c->db == NULL
        || prepare_all(c->db, c->statements, sql, STATEMENTS) != ANSWER_DONE
        || prepare_rows(c->db, &c->added, insert) != ANSWER_DONE)
        return ANSWER_FAULT;
    if (prepare(c->db, &select, "SELECT number FROM incarnation") == ANSWER_DONE && step_row(&select) == ANSWER_FOUND)
        c->list = (uint64_t)sqlite3_column_int64(select.at, 0);
    finalize(&select, 1);
    return c->list > 0 ? ANSWER_DONE : ANSWER_FAULT;
}

static uint64_t not_due(struct carrier *base)
{
    (void)base;
    return UINT64_MAX;
}

struct carrier *sqlite_carrier_open(const char *path)
{
    struct sqlite_carrier *c = calloc(1, sizeof *c);
    if (c == NULL)
        return NULL;
    c->base = (struct carrier){ find_list, make, publish, confirmed, seek, fetch, behind, acknowledge, receipts, forget,
                                never, never, close_carrier, not_due, path, -1 };
    if (open_carrier(c, path) == ANSWER_DONE)
        return &c->base;
    close_carrier(&c->base);
    return NULL;
}
