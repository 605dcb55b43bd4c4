/* The loop beside which sender and receiver are measured (bench_bare.py): rows of an outbox pass through a carrier into a
 * store, in as many transactions and syncs, without sealing, receipts and sessions.
 *     bare send OUTBOX CARRIER
 *     bare receive STORE CARRIER */
#include "carrier.h"
#include "clock.h"
#include "database.h"
#include "effect.h"
#include "signals.h"
#include "waiting.h"

#include <string.h>
#include <sys/stat.h>

enum { TAKEN = 1024, SHORT = 20, LONG = 1000 }; /* rows at once; milliseconds to wait */
enum { HAS_TEXT, DROP, MOVE, CLEAR, SELECT, OUTBOX };

static const char outbox_tables[] =
    "CREATE TABLE IF NOT EXISTS text (id INTEGER PRIMARY KEY AUTOINCREMENT, session TEXT NOT NULL, body BLOB);"
    "CREATE TABLE IF NOT EXISTS sealed (id INTEGER PRIMARY KEY, session TEXT NOT NULL, body BLOB)";

static const char *const outbox_sql[OUTBOX] = {
    [HAS_TEXT] = "SELECT 1 FROM text LIMIT 1",
    [DROP] = "DELETE FROM sealed WHERE id <= ?",
    [MOVE] = "INSERT INTO sealed SELECT id, session, body FROM text ORDER BY id LIMIT ?",
    [CLEAR] = "DELETE FROM text WHERE id <= (SELECT max(id) FROM sealed)",
    [SELECT] = "SELECT id, session, body FROM sealed WHERE id > ? ORDER BY id",
};

struct bare {
    sqlite3 *db;
    struct carrier *carrier;
    struct store *store;
    struct statement statements[OUTBOX];
    struct waiting waiting;
    struct reached reached;
    uint64_t list, last, dropped, kept; /* the last row that is carried; that is dropped, and when something was stored */
    struct carried frames[TAKEN];
    struct confirmed confirmed[TAKEN];
};

/* ---- The sender */

/* What is carried is dropped, and what waits is taken, in one transaction. */
static enum answer take_texts(struct bare *b)
{
    bind_number(&b->statements[DROP], 1, (sqlite3_int64)b->last);
    bind_number(&b->statements[MOVE], 1, TAKEN);
    if (begin_writing(b->db) != ANSWER_DONE || step_once(&b->statements[DROP]) != ANSWER_DONE
        || step_once(&b->statements[MOVE]) != ANSWER_DONE
        || step_once(&b->statements[CLEAR]) != ANSWER_DONE || run(b->db, "COMMIT") != ANSWER_DONE)
        return ANSWER_FAULT;
    b->dropped = b->last;
    b->kept = milliseconds();
    return ANSWER_DONE;
}

static enum answer await_carried(struct bare *b, size_t sent)
{
    enum answer answer = ANSWER_DONE;
    size_t came = 0;
    for (; sent > 0 && answer == ANSWER_DONE && !is_ending(); sent -= came) {
        answer = b->carrier->confirmed(b->carrier, b->confirmed, TAKEN, &came);
        if (came == 0)
            waiting_for(b->carrier->descriptor, milliseconds() + SHORT);
    }
    return sent == 0 ? ANSWER_DONE : ANSWER_FAULT;
}

/* Publishes what was taken, and waits until it is carried. */
static enum answer publish_rows(struct bare *b)
{
    struct statement *select = &b->statements[SELECT];
    enum answer answer = ANSWER_DONE;
    size_t sent = 0;
    bind_number(select, 1, (sqlite3_int64)b->last);
    while (answer == ANSWER_DONE && step_row(select) == ANSWER_FOUND) {
        b->last = (uint64_t)sqlite3_column_int64(select->at, 0);
        answer = b->carrier->publish(b->carrier, 0, (const char *)sqlite3_column_text(select->at, 1), 0, b->last,
                                     sqlite3_column_blob(select->at, 2), (size_t)sqlite3_column_bytes(select->at, 2));
        sent++;
    }
    end_rows(select);
    return answer == ANSWER_DONE ? await_carried(b, sent) : ANSWER_FAULT;
}

static int has_text(struct bare *b)
{
    enum answer row = step_row(&b->statements[HAS_TEXT]); /* a fault is reported */
    end_rows(&b->statements[HAS_TEXT]);
    return row == ANSWER_FOUND;
}

/* Waits until there is a list to which frames are published. */
static void await_list(struct bare *b)
{
    size_t came;
    while (b->list == 0 && !is_ending()) {
        (void)b->carrier->make(b->carrier, 0, &b->list); /* a fault is reported, and it is tried again */
        (void)b->carrier->confirmed(b->carrier, b->confirmed, TAKEN, &came);
        waiting_for(b->carrier->descriptor, milliseconds() + SHORT);
    }
}

static enum answer send_all(struct bare *b)
{
    enum answer answer = ANSWER_DONE;
    await_list(b);
    while (answer == ANSWER_DONE && !is_ending()) {
        int texts = has_text(b), is_due = b->dropped < b->last && milliseconds() - b->kept >= SHORT;
        if (texts || is_due)
            answer = take_texts(b) != ANSWER_DONE ? ANSWER_FAULT : publish_rows(b);
        else
            (void)waiting_until(&b->waiting, milliseconds() + (b->dropped < b->last ? SHORT : LONG));
    }
    return answer;
}

/* ---- The receiver */

/* Stores the effects of these frames, and how far the shard was read. */
static enum answer store_frames(struct bare *b, size_t count)
{
    struct reached to = { b->list, b->frames[count - 1].offset };
    enum answer answer = store_begin(b->store, 0, &b->reached, &to);
    size_t i;
    for (i = 0; i < count && answer == ANSWER_DONE; i++) {
        const struct carried *it = &b->frames[i];
        struct arrived text = { it->session, "", "", it->offset, 0, it->frame, it->len };
        answer = take_effect(b->store, &text);
    }
    if (answer != ANSWER_DONE || b->store->commit(b->store) != ANSWER_DONE)
        return ANSWER_FAULT;
    b->reached = to;
    return ANSWER_DONE;
}

static enum answer receive_all(struct bare *b)
{
    uint64_t end = 0;
    enum answer answer = ANSWER_DONE;
    size_t count = 0;
    while (b->list == 0 && !is_ending() && b->carrier->find_list(b->carrier, 0, &b->list, &end) == ANSWER_DONE)
        pause_milliseconds(SHORT);
    b->carrier->seek(b->carrier, 0, 0);
    while (answer == ANSWER_DONE && !is_ending()) {
        answer = b->carrier->fetch(b->carrier, b->frames, TAKEN, &count);
        if (count > 0 && store_frames(b, count) != ANSWER_DONE)
            answer = ANSWER_FAULT;
        if (count == 0)
            (void)waiting_until(&b->waiting, milliseconds() + LONG);
    }
    return answer;
}

/* ---- */

static int begin(struct bare *b, int sends, const char *where, const struct carrier_options *options)
{
    waiting_begin(&b->waiting, 0);
    b->carrier = carrier_open(options);
    if (b->carrier == NULL)
        return -1;
    if (!sends) {
        b->store = store_open(where, 0);
        waiting_hear(&b->waiting, b->carrier->descriptor);
        if (b->carrier->file != NULL)
            waiting_watch(&b->waiting, b->carrier->file);
        return b->store != NULL ? 0 : -1;
    }
    b->db = open_database(where, outbox_tables);
    waiting_watch(&b->waiting, where);
    return b->db != NULL ? prepare_all(b->db, b->statements, outbox_sql, OUTBOX) : -1;
}

int main(int count, char **words)
{
    static struct bare bare;
    struct carrier_options options = { .replicas = 1 };
    int sends = count == 4 && strcmp(words[1], "send") == 0;
    if (count != 4)
        return 2;
    options.where = words[3];
    umask(077);
    end_by_signals();
    if (begin(&bare, sends, words[2], &options) != 0)
        return 1;
    return (sends ? send_all(&bare) : receive_all(&bare)) != ANSWER_DONE && !is_ending();
}
