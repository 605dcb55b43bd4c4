/* Store and forward: each end may be killed at any time, and each text takes effect once, in order.
 *
 *     store send SENT COUNT           seals "text 0" and so on, and then the close, into a database
 *     store receive SENT RECEIVED     takes the frames of SENT, from the first on, into another one
 *     store show RECEIVED             prints the texts that took effect
 *
 * One row is a frame and the number that is used up by it, at the sender; at the receiver it is the
 * effect of a record and the state after it. SQLite stores a row whole or not at all. */
#include <krbrelay.h>

#include <sqlite3.h>
#include <stdio.h>
#include <stdlib.h>
#include <string.h>

enum { TEXT = 64, ROOM = KRBRELAY_FRAME_SIZE(TEXT), ETYPE = 18 };

static const uint8_t key[32] = "a session key of thirty-two byte";   /* of the exchange before */
static const struct krbrelay_address alice = { KRBRELAY_IPV4, 4, { 10, 0, 0, 1 } };
static const struct krbrelay_address bob = { KRBRELAY_IPV4, 4, { 10, 0, 0, 255 } };

/* What fails ends the program: what isn't stored is as if it had never been. */
static void must(int is_so, const char *what, const char *why)
{
    if (is_so)
        return;
    fprintf(stderr, "%s: %s\n", what, why);
    exit(1);
}

static void answered(enum krbrelay_answer answer, const char *what)
{
    must(answer == KRBRELAY_OK, what, krbrelay_strerror(answer));
}

static sqlite3 *open_rows(const char *path)
{
    sqlite3 *db = NULL;
    must(sqlite3_open(path, &db) == 0 && sqlite3_busy_timeout(db, 60000) == 0 &&
             sqlite3_exec(db, "create table if not exists rows(number integer primary key, bytes)",
                          NULL, NULL, NULL) == 0, path, sqlite3_errmsg(db));
    return db;
}

static sqlite3_stmt *prepare(sqlite3 *db, const char *sql)
{
    sqlite3_stmt *it = NULL;
    must(sqlite3_prepare_v2(db, sql, -1, &it, NULL) == 0, sql, sqlite3_errmsg(db));
    return it;
}

static uint32_t ask(sqlite3 *db, const char *sql)
{
    sqlite3_stmt *it = prepare(db, sql);
    uint32_t answer;
    must(sqlite3_step(it) == SQLITE_ROW, sql, sqlite3_errmsg(db));
    answer = (uint32_t)sqlite3_column_int64(it, 0);
    sqlite3_finalize(it);
    return answer;
}

/* A row: of these bytes, or of none where bytes is NULL. */
static void put(sqlite3 *db, uint64_t number, const uint8_t *bytes, size_t len)
{
    sqlite3_stmt *it = prepare(db, "insert into rows values(?, ?)");
    must(sqlite3_bind_int64(it, 1, (sqlite3_int64)number) == 0 &&
             sqlite3_bind_blob64(it, 2, bytes, len, SQLITE_STATIC) == 0 &&
             sqlite3_step(it) == SQLITE_DONE, "not stored", sqlite3_errmsg(db));
    sqlite3_finalize(it);
}

/* A sender that is started again goes on at the first number that no stored frame has. */
static void send_all(sqlite3 *sent, uint32_t count)
{
    struct krbrelay_session session = { .mode = KRBRELAY_PRIV, .sender = alice, .has_receiver = 1,
                                        .receiver = bob };
    struct krbrelay_sealer sealer = KRBRELAY_INIT;
    uint8_t frame[ROOM];
    session.first = ask(sent, "select count(*) from rows");
    answered(krbrelay_sealer_new(&sealer, ETYPE, key, sizeof key, &session), "no sealer");
    for (uint32_t i = session.first; i <= count; i++) {
        char text[TEXT];
        size_t len = i < count ? (size_t)snprintf(text, sizeof text, "text %u", (unsigned)i) : 0;
        size_t size = 0;
        answered(krbrelay_sealer_seal_record_now(&sealer, i < count ? KRBRELAY_TEXT : KRBRELAY_CLOSE,
                                                 (uint8_t *)text, len, frame, sizeof frame, &size),
                 "not sealed");
        put(sent, i, frame, size);
    }
    krbrelay_sealer_free(&sealer);
    krbrelay_clear_stack();
}

/* A frame that comes again is passed by: the number that came says so. */
static void take(sqlite3 *received, struct krbrelay_receiver *receiver, const uint8_t *frame, size_t len)
{
    struct krbrelay_moment now;
    uint8_t text[ROOM];
    uint64_t next = 0, number = 0;
    uint32_t kind = 0, closed = 0;
    size_t size = 0;
    enum krbrelay_answer answer;
    answered(krbrelay_now(&now), "no time");
    answered(krbrelay_receiver_state(receiver, &next, &closed), "no state");
    answer = krbrelay_receiver_take_numbered(receiver, frame, len, &now, &kind, text, sizeof text,
                                             &size, &number);
    if (answer == KRBRELAY_OK)
        put(received, number, kind == KRBRELAY_TEXT ? text : NULL, size);
    else if (answer != KRBRELAY_AFTER_CLOSE && !(answer == KRBRELAY_BADORDER && number < next))
        answered(answer, "not taken");
}

/* The rows are the state: as many as there are were taken, and the close has no bytes. */
static void receive_all(sqlite3 *sent, sqlite3 *received)
{
    /* A frame may be stored for long: any time is accepted. */
    struct krbrelay_expect expect = { .mode = KRBRELAY_PRIV, .sender = alice, .receiver = bob,
                                      .require_receiver = 1, .skew = UINT32_MAX };
    struct krbrelay_receiver receiver = KRBRELAY_INIT;
    sqlite3_stmt *frames = prepare(sent, "select bytes from rows order by number");
    uint32_t next = ask(received, "select count(*) from rows");
    uint32_t closed = ask(received, "select count(*) > count(bytes) from rows");
    answered(krbrelay_receiver_new(&receiver, ETYPE, key, sizeof key, &expect, next, closed),
             "no receiver");
    while (sqlite3_step(frames) == SQLITE_ROW)
        take(received, &receiver, sqlite3_column_blob(frames, 0),
             (size_t)sqlite3_column_bytes(frames, 0));
    sqlite3_finalize(frames);
    krbrelay_receiver_free(&receiver);
    krbrelay_clear_stack();
}

static void show(sqlite3 *received)
{
    sqlite3_stmt *rows = prepare(received, "select ifnull(bytes, 'closed') from rows order by number");
    while (sqlite3_step(rows) == SQLITE_ROW)
        printf("%.*s\n", sqlite3_column_bytes(rows, 0), (const char *)sqlite3_column_blob(rows, 0));
    sqlite3_finalize(rows);
}

int main(int argc, char **argv)
{
    sqlite3 *sent = argc == 4 ? open_rows(argv[2]) : NULL, *received = NULL;
    if (argc == 4 && strcmp(argv[1], "send") == 0)
        send_all(sent, (uint32_t)atoi(argv[3]));
    else if (argc == 4 && strcmp(argv[1], "receive") == 0)
        receive_all(sent, received = open_rows(argv[3]));
    else if (argc == 3 && strcmp(argv[1], "show") == 0)
        show(received = open_rows(argv[2]));
    return sqlite3_close(sent) != 0 || sqlite3_close(received) != 0 || argc < 3;
}
