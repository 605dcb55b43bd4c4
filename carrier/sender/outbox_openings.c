/* The sessions of an outbox that begin by tickets: rows of its table `opened`. */
#include "clock.h"
#include "log.h"
#include "outbox.h"
#include "text.h"

#include <string.h>

enum { NAME, STREAM, BEFORE, ETYPE, TURN, SINCE, SHARD, CLOSED, KVNO, WRAPPING, KEY };

/* What is wrapped with the key. */
static void write_about(const struct opened *it, char about[KEY_WRAPPING_ABOUT])
{
    write_whole(about, KEY_WRAPPING_ABOUT, "%s %d %s %s", it->name, (int)it->etype, it->stream,
                it->before[0] != 0 ? it->before : "-");
}

static int copy_column(sqlite3_stmt *row, int column, char to[CARRIER_NAME])
{
    return copy_text(to, CARRIER_NAME, (const char *)sqlite3_column_text(row, column));
}

/* A row as it is, whose key is wrapped. */
static int read_columns(sqlite3_stmt *row, struct begun *it, struct wrapped *wrapped)
{
    struct opened *opened = &it->opened;
    const void *key = sqlite3_column_blob(row, KEY);
    size_t len = (size_t)sqlite3_column_bytes(row, KEY);
    int is_fine = copy_column(row, NAME, opened->name) && copy_column(row, STREAM, opened->stream)
                  && copy_column(row, BEFORE, opened->before) && key != NULL
                  && len <= sizeof wrapped->bytes;
    if (!is_fine) {
        log_fact(LEVEL_ERROR, "row_malformed", field_text("session", opened->name),
                 field_text("text", "a row of the table opened isn't one: was it changed?"));
        return 0;
    }
    opened->etype = sqlite3_column_int(row, ETYPE);
    it->turn = (uint64_t)sqlite3_column_int64(row, TURN);
    it->since = (uint64_t)sqlite3_column_int64(row, SINCE);
    opened->shard = (unsigned)sqlite3_column_int(row, SHARD) % CARRIER_SHARDS;
    opened->says_shard = 1;
    it->is_closed = sqlite3_column_int(row, CLOSED);
    wrapped->kvno = (uint32_t)sqlite3_column_int64(row, KVNO);
    wrapped->etype = sqlite3_column_int(row, WRAPPING);
    wrapped->len = len;
    memcpy(wrapped->bytes, key, len);
    return 1;
}

/* The first row that a statement gives. */
static enum answer find(struct outbox *o, enum outbox_statement which, struct kerberos *kerberos,
                        struct begun *it)
{
    struct statement *select = &o->statements[which];
    struct wrapped wrapped;
    char about[KEY_WRAPPING_ABOUT];
    enum answer row = step_row(select);
    memset(it, 0, sizeof *it);
    if (row == ANSWER_FOUND && !read_columns(select->at, it, &wrapped))
        row = ANSWER_FAULT;
    end_rows(select);
    if (row != ANSWER_FOUND)
        return row;
    write_about(&it->opened, about);
    return key_unwrap(kerberos, KEY_WRAPPING_SENDER, about, &wrapped, it->opened.key,
                        &it->opened.key_len) == 0 ? ANSWER_FOUND : ANSWER_FAULT;
}

enum answer outbox_find_begun(struct outbox *o, struct kerberos *kerberos, const char *name,
                              struct begun *it)
{
    bind_text(&o->statements[SELECT_OPENED], 1, name);
    return find(o, SELECT_OPENED, kerberos, it);
}

enum answer outbox_find_stream(struct outbox *o, struct kerberos *kerberos, const char *stream,
                               struct begun *it)
{
    bind_text(&o->statements[SELECT_STREAM], 1, stream);
    return find(o, SELECT_STREAM, kerberos, it);
}

/* Deletes what the outbox has of a session. */
static enum answer forget(struct outbox *o, const char *name)
{
    bind_text(&o->statements[DROP_OPENED], 1, name);
    bind_text(&o->statements[FORGET_SESSION], 1, name);
    return step_once(&o->statements[DROP_OPENED]) == ANSWER_DONE
           && step_once(&o->statements[FORGET_SESSION]) == ANSWER_DONE ? ANSWER_DONE : ANSWER_FAULT;
}

enum answer outbox_forget_ended(struct outbox *o, const struct begun *it, struct ended *ended)
{
    struct statement *select = &o->statements[SELECT_ENDED];
    size_t i = ended->count;
    enum answer answer = ANSWER_DONE, row = ANSWER_DONE;
    bind_text(select, 1, it->opened.stream);
    bind_number(select, 2, (sqlite3_int64)it->turn);
    bind_number(select, 3, (sqlite3_int64)(ENDED - ended->count));
    while (ended->count < ENDED && (row = step_row(select)) == ANSWER_FOUND
           && copy_column(select->at, 0, ended->at[ended->count].name))
        ended->at[ended->count++].shard = (unsigned)sqlite3_column_int(select->at, 1) % CARRIER_SHARDS;
    end_rows(select);
    for (; i < ended->count && answer == ANSWER_DONE; i++)
        answer = forget(o, ended->at[i].name);
    return row != ANSWER_FAULT ? answer : ANSWER_FAULT;
}

int outbox_wrap(struct kerberos *kerberos, const struct begun *it, struct wrapped *wrapped)
{
    const struct opened *opened = &it->opened;
    char about[KEY_WRAPPING_ABOUT];
    write_about(opened, about);
    return key_wrap(kerberos, KEY_WRAPPING_SENDER, about, opened->key, opened->key_len, wrapped);
}

enum answer outbox_add_begun(struct outbox *o, const struct begun *it, const struct wrapped *wrapped)
{
    struct statement *add = &o->statements[ADD_OPENED];
    const struct opened *opened = &it->opened;
    bind_text(add, 1 + NAME, opened->name);
    bind_text(add, 1 + STREAM, opened->stream);
    bind_text(add, 1 + BEFORE, opened->before);
    bind_number(add, 1 + ETYPE, opened->etype);
    bind_number(add, 1 + TURN, (sqlite3_int64)it->turn);
    bind_number(add, 1 + SINCE, (sqlite3_int64)it->since);
    bind_number(add, 1 + SHARD, opened->shard);
    bind_number(add, 1 + CLOSED, it->is_closed);
    bind_number(add, 1 + KVNO, wrapped->kvno);
    bind_number(add, 1 + WRAPPING, wrapped->etype);
    bind_bytes(add, 1 + KEY, wrapped->bytes, wrapped->len);
    return step_once(add);
}

enum answer outbox_close_begun(struct outbox *o, const struct begun *it)
{
    struct statement *set = &o->statements[CLOSE_OPENED];
    bind_text(set, 1, it->opened.name);
    return step_once(set);
}

/* ---- Keys that are wrapped anew */

/* Wraps the next one after this name, which becomes its name. */
static enum answer wrap_next(struct outbox *o, struct kerberos *kerberos, uint32_t kvno,
                             char after[CARRIER_NAME])
{
    struct begun it;
    struct wrapped wrapped;
    enum answer found;
    bind_number(&o->statements[SELECT_WRAPPED], 1, kvno);
    bind_text(&o->statements[SELECT_WRAPPED], 2, after);
    found = find(o, SELECT_WRAPPED, kerberos, &it);
    memcpy(after, it.opened.name, CARRIER_NAME);
    if (found == ANSWER_FOUND && (outbox_wrap(kerberos, &it, &wrapped) != 0
        || outbox_add_begun(o, &it, &wrapped) != ANSWER_DONE))
        found = ANSWER_FAULT;
    explicit_bzero(&it, sizeof it);
    return found;
}

enum answer outbox_wrap_anew(struct outbox *o, struct kerberos *kerberos)
{
    char after[CARRIER_NAME] = "";
    uint32_t kvno;
    enum answer found = ANSWER_FOUND;
    if (key_newest(kerberos, &kvno) != 0 || outbox_begin(o) != ANSWER_DONE)
        return ANSWER_FAULT;
    while (found == ANSWER_FOUND || (found == ANSWER_FAULT && after[0] != 0)) /* one that can't be read is passed by */
        found = wrap_next(o, kerberos, kvno, after);
    if (found == ANSWER_DONE && outbox_commit(o) == ANSWER_DONE)
        return ANSWER_DONE;
    outbox_rollback(o);
    return ANSWER_FAULT;
}
