/* Seals texts from an outbox, and opens each of the frames:  outbox_test FOLDER
 * Texts of no bytes up to the longest, the close, confounders, the last number, what was taken back, what is
 * noted for receipts or is done, what freed blocks have, whose turn it is, the next number's compare-and-set,
 * and the bound of texts that wait. */
#include "check.h"
#include "clock.h"
#include "left.h"
#include "seal.h"

#include <string.h>
#include <sys/stat.h>

enum { LONGEST = 1000000, SAME = 40, TEXTS = 6 };

static uint8_t bytes[LONGEST], frame[KRBRELAY_FRAME_LIMIT], drawn[4096];
static size_t drawn_len, confounders; /* bytes that were drawn; how many frames have some of them */
static const char secret[] = "a text that waits to be sealed";
static const size_t lens[TEXTS] = { 0, 1, 16, 0, LONGEST, 5 };

/* In the place of the system's: what it gives for confounders is known, and no 16 bytes of it come twice. */
ssize_t getrandom(void *to, size_t len, unsigned flags)
{
    size_t i;
    (void)flags;
    check(len <= sizeof drawn - drawn_len, "no more is drawn than the frames need");
    for (i = drawn_len; i < drawn_len + len; i++)
        drawn[i] = (uint8_t)(i * 167 + i / 16);
    memcpy(to, drawn + drawn_len, len);
    drawn_len += len;
    return (ssize_t)len;
}

static int history_is(const struct history *one, const struct history *other)
{
    return one->is_known && other->is_known && memcmp(one->bytes, other->bytes, sizeof one->bytes) == 0;
}

/* A session whose frames are from 10.0.0.1. */
static struct session session_of(const char *name, uint32_t mode, uint32_t first)
{
    struct session it = { .shard = 3, .etype = 17, .mode = mode, .key_len = 16, .first = first,
                          .from = { .kind = KRBRELAY_IPV4, .len = 4, .bytes = { 10, 0, 0, 1 } } };
    strcpy(it.name, name);
    memset(it.key, name[0], it.key_len);
    return it;
}

static void put(struct outbox *outbox, const char *session, const void *text, size_t len)
{
    sqlite3_stmt *insert = NULL;
    check(sqlite3_prepare_v2(outbox->db, "INSERT INTO text (session, body) VALUES (?, ?)", -1, &insert, NULL)
          == SQLITE_OK, "an insertion is prepared");
    sqlite3_bind_text(insert, 1, session, -1, SQLITE_STATIC);
    if (text != NULL)
        sqlite3_bind_blob(insert, 2, text, (int)len, SQLITE_STATIC);
    check(sqlite3_step(insert) == SQLITE_DONE, "a text is put in");
    sqlite3_finalize(insert);
}

/* Takes all that waits, so many texts together, in a transaction that it begins. Answers what the last one
 * did. */
static enum answer take_waiting(struct sealing *sealing, struct outbox *outbox, struct sending *sending,
                                unsigned together)
{
    struct statement *select;
    struct waiting_text text;
    enum answer answer = ANSWER_DONE;
    check(seal_begin(sealing, outbox, together) == ANSWER_DONE, "there is memory");
    check(outbox_begin(outbox) == ANSWER_DONE, "a transaction begins");
    select = outbox_select_texts(outbox, 0, 1000);
    while (answer == ANSWER_DONE && outbox_next_text(select, &text) == ANSWER_FOUND)
        answer = seal_text(sealing, sending, &text);
    end_rows(select);
    return answer;
}

/* The same, and seals it. */
static enum answer seal_waiting(struct outbox *outbox, struct sending *sending, unsigned together)
{
    struct sealing sealing;
    enum answer answer = take_waiting(&sealing, outbox, sending, together);
    if (answer == ANSWER_DONE)
        answer = seal_all(&sealing);
    seal_end(&sealing);
    return answer;
}

/* The same, committed if all could be sealed. */
static enum answer seal_and_commit(struct outbox *outbox, struct sending *sending, unsigned together)
{
    enum answer answer = seal_waiting(outbox, sending, together);
    if (answer == ANSWER_DONE)
        check(outbox_commit(outbox) == ANSWER_DONE, "it is committed");
    else
        outbox_rollback(outbox);
    return answer;
}

static const struct history of_none = { .is_known = 1 };

static struct sending sending_of(struct session of)
{
    struct sending it = { .of = of, .sealed = of.first, .history = { .is_known = 1 } };
    check(krbrelay_sending_load(&it.end, of.first, of.first, 0, of.first, 0, 0) == KRBRELAY_OK, "its end begins");
    return it;
}

/* ---- each frame of a session, taken by a receiver */

static void check_record(struct krbrelay_receiver *receiver, const uint8_t *given, size_t len,
                         uint32_t wanted, const uint8_t *text, size_t text_len)
{
    static uint8_t taken[KRBRELAY_FRAME_LIMIT];
    struct krbrelay_moment now = read_clock();
    uint32_t kind = 0;
    size_t size = 0;
    check(krbrelay_receiver_take(receiver, given, len, &now, &kind, taken, sizeof taken, &size)
          == KRBRELAY_OK, "a frame is taken");
    check(kind == wanted, "it is of the kind that was put in");
    check(size == text_len && memcmp(taken, text, size) == 0, "and of the text");
}

/* Texts of no bytes are texts, and the close comes last. */
static void test_texts(struct outbox *outbox)
{
    struct session of = session_of("texts", KRBRELAY_PRIV, 1);
    struct sending sending = sending_of(of);
    struct krbrelay_expect expect = { .mode = of.mode, .sender = of.from, .skew = 100 };
    struct krbrelay_receiver receiver = KRBRELAY_INIT;
    const uint8_t *found = NULL;
    uint64_t number = 0;
    size_t len = 0, i;
    for (i = 0; i < TEXTS; i++)
        put(outbox, of.name, bytes, lens[i]);
    put(outbox, of.name, NULL, 0);
    check(seal_and_commit(outbox, &sending, 1) == ANSWER_DONE, "all is sealed");
    check(krbrelay_receiver_new(&receiver, of.etype, of.key, of.key_len, &expect, 1, 0) == KRBRELAY_OK,
          "a receiver is made");
    outbox_select_frames(outbox, of.name, 0, 1000);
    for (i = 0; i <= TEXTS; i++) {
        check(outbox_next_frame(outbox, &number, &found, &len) == ANSWER_FOUND
              && number == i + 1, "a frame for each text");
        check_record(&receiver, found, len, i < TEXTS ? KRBRELAY_TEXT : KRBRELAY_CLOSE, bytes,
                     i < TEXTS ? lens[i] : 0);
    }
    outbox_end_frames(outbox);
    krbrelay_receiver_free(&receiver);
    seal_free(&sending);
    confounders = TEXTS + 1;
}

/* Where the encrypted bytes of a KRB-PRIV begin: after the tag a2 of its cipher, a length, the tag 04 of
 * octets and another length, each of one byte here (RFC 4120 sections 5.2.9 and 5.7.1). */
static const uint8_t *cipher_of(const uint8_t *found, size_t len)
{
    size_t at;
    for (at = 0; at + 4 + 16 <= len; at++)
        if (found[at] == 0xa2 && found[at + 2] == 0x04 && found[at + 1] == found[at + 3] + 2)
            return found + at + 4;
    check(0, "a frame has a cipher");
    return NULL;
}

/* When a frame was sealed. */
static struct krbrelay_moment moment_of(const struct session *of, const uint8_t *found, size_t len)
{
    struct krbrelay_expect expect = { .mode = of->mode, .sender = of->from };
    struct krbrelay_opener opener = KRBRELAY_INIT;
    struct krbrelay_demand none = { 0 };
    struct krbrelay_carried told = { 0 };
    struct krbrelay_moment now = read_clock();
    size_t size = 0;
    check(krbrelay_opener_new(&opener, of->etype, of->key, of->key_len, &expect) == KRBRELAY_OK
          && krbrelay_opener_open(&opener, found, len, &none, &now, frame, sizeof frame, &size, &told)
          == KRBRELAY_OK, "a frame opens");
    krbrelay_opener_free(&opener);
    return (struct krbrelay_moment){ .seconds = told.seconds, .microseconds = told.microseconds };
}

/* A frame has this confounder: sealed with it once more, it has the same bytes. */
static void check_confounder(const struct session *of, uint64_t number, const uint8_t *found, size_t len,
                             const uint8_t *confounder)
{
    struct krbrelay_session session = { .mode = of->mode, .first = (uint32_t)number, .sender = of->from };
    struct krbrelay_sealer sealer = KRBRELAY_INIT;
    struct krbrelay_moment at = moment_of(of, found, len);
    size_t size = 0;
    check(krbrelay_sealer_new(&sealer, of->etype, of->key, of->key_len, &session) == KRBRELAY_OK
          && krbrelay_sealer_seal_record(&sealer, KRBRELAY_TEXT, bytes, 4, &at, confounder, frame, sizeof frame,
                                         &size) == KRBRELAY_OK, "it is sealed once more");
    check(size == len && memcmp(frame, found, len) == 0, "its confounder is the next 16 bytes that were drawn");
    krbrelay_sealer_free(&sealer);
}

/* The first block that is encrypted is the confounder: of equal texts it differs each time. */
static void test_confounders(struct outbox *outbox)
{
    static uint8_t first[SAME][16];
    struct session of = session_of("confounders", KRBRELAY_PRIV, 1);
    struct sending sending = sending_of(of);
    const uint8_t *found = NULL, *next = drawn + 16 * confounders;
    uint64_t number = 0;
    size_t len = 0, i, k;
    for (i = 0; i < SAME; i++)
        put(outbox, of.name, bytes, 4);
    check(seal_and_commit(outbox, &sending, 1) == ANSWER_DONE, "equal texts are sealed");
    outbox_select_frames(outbox, of.name, 0, 1000);
    for (i = 0; i < SAME && outbox_next_frame(outbox, &number, &found, &len) == ANSWER_FOUND; i++) {
        memcpy(first[i], cipher_of(found, len), 16);
        for (k = 0; k < i; k++)
            check(memcmp(first[i], first[k], 16) != 0, "confounders differ");
        check_confounder(&of, number, found, len, next + 16 * i);
    }
    check(i == SAME, "a frame for each of the equal texts");
    outbox_end_frames(outbox);
    seal_free(&sending);
}

/* The last number is kept for the close. */
static void test_last_number(struct outbox *outbox)
{
    struct session of = session_of("last", KRBRELAY_SAFE, UINT32_MAX - 1);
    struct sending sending = sending_of(of);
    put(outbox, of.name, bytes, 1);
    check(seal_and_commit(outbox, &sending, 1) == ANSWER_DONE, "the number before the last is a text's");
    check(sqlite3_exec(outbox->db, "DELETE FROM text; DELETE FROM sealed", NULL, NULL, NULL) == SQLITE_OK, "it is taken");
    put(outbox, of.name, bytes, 1);
    check(seal_and_commit(outbox, &sending, 1) == ANSWER_STOPPED, "no text has the last number");
    seal_reset(&sending, &of_none);
    sending.sealed = UINT32_MAX;
    put(outbox, of.name, bytes, 1);
    check(seal_and_commit(outbox, &sending, 2) == ANSWER_STOPPED, "nor has a batch");
    seal_reset(&sending, &of_none);
    sending.sealed = UINT32_MAX;
    check(sqlite3_exec(outbox->db, "DELETE FROM text; DELETE FROM sealed", NULL, NULL, NULL) == SQLITE_OK, "it is dropped");
    put(outbox, of.name, NULL, 0);
    check(seal_and_commit(outbox, &sending, 1) == ANSWER_DONE
          && sending.sealed == UINT64_C(1) << 32, "the close has it");
    seal_free(&sending);
}

/* What a transaction took back is sealed again, under the number that it had. */
static void test_taken_back(struct outbox *outbox)
{
    struct session of = session_of("back", KRBRELAY_PRIV, 7);
    struct sending sending = sending_of(of);
    struct krbrelay_expect expect = { .mode = of.mode, .sender = of.from, .skew = 100 };
    struct krbrelay_receiver receiver = KRBRELAY_INIT;
    const uint8_t *found = NULL;
    uint64_t number = 0;
    size_t len = 0;
    put(outbox, of.name, bytes, 5);
    check(seal_waiting(outbox, &sending, 1) == ANSWER_DONE && sending.sealed == 8, "a text is sealed");
    outbox_rollback(outbox);
    seal_reset(&sending, &of_none);
    check(seal_and_commit(outbox, &sending, 1) == ANSWER_DONE && sending.sealed == 8, "it is sealed again");
    check(krbrelay_receiver_new(&receiver, of.etype, of.key, of.key_len, &expect, 7, 0) == KRBRELAY_OK,
          "a receiver is made");
    outbox_select_frames(outbox, of.name, 0, 1000);
    check(outbox_next_frame(outbox, &number, &found, &len) == ANSWER_FOUND
          && number == 7, "its frame has the same number");
    check_record(&receiver, found, len, KRBRELAY_TEXT, bytes, 5);
    check(outbox_next_frame(outbox, &number, &found, &len) == ANSWER_DONE, "and is the only one");
    outbox_end_frames(outbox);
    krbrelay_receiver_free(&receiver);
    seal_free(&sending);
}

/* The texts of one session that wait, up to one of them: that one too, and so many at most. */
static void test_waiting(struct outbox *outbox)
{
    static const struct { int before, limit, found; } cases[] = { { 0, 9, 3 }, { 1, 9, 2 }, { 2, 9, 1 }, { 0, 2, 2 } };
    struct waiting_text text = { 0 };
    sqlite3_int64 last;
    size_t i;
    for (i = 0; i < 3; i++) {
        put(outbox, "others", bytes, 5);
        put(outbox, "waits", bytes, 5);
    }
    last = sqlite3_last_insert_rowid(outbox->db);
    for (i = 0; i < sizeof cases / sizeof *cases; i++) {
        struct statement *select = outbox_select_waiting(outbox, "waits", last - 2 * cases[i].before,
                                                         (size_t)cases[i].limit);
        int found = 0;
        while (outbox_next_text(select, &text) == ANSWER_FOUND && strcmp(text.session, "waits") == 0)
            found++;
        sqlite3_reset(select->at);
        check(found == cases[i].found, "texts up to one of them are given");
    }
}

/* Each text is noted with its number and its place in the record. */
static void test_noted(struct outbox *outbox)
{
    static const int numbers[] = { 4, 4, 4, 5 }, parts[] = { 0, 1, 2, 0 };
    struct session of = session_of("noted", KRBRELAY_PRIV, 4);
    struct sending sending = sending_of(of);
    sqlite3_stmt *select = NULL;
    int i;
    for (i = 0; i < 3; i++)
        put(outbox, of.name, bytes, 5);
    put(outbox, of.name, NULL, 0);
    check(seal_and_commit(outbox, &sending, 3) == ANSWER_DONE, "a batch and the close are sealed");
    check(sqlite3_prepare_v2(outbox->db, "SELECT number, part FROM sealed WHERE session = 'noted' ORDER BY text",
                             -1, &select, NULL) == SQLITE_OK, "what is noted is asked for");
    for (i = 0; i < 4; i++)
        check(sqlite3_step(select) == SQLITE_ROW && sqlite3_column_int(select, 0) == numbers[i]
              && sqlite3_column_int(select, 1) == parts[i], "a text is noted at its number and place");
    check(sqlite3_step(select) == SQLITE_DONE, "and nothing else is");
    sqlite3_finalize(select);
    seal_free(&sending);
}

/* A sender that ends leaves no text in the blocks that it frees. */
static void test_nothing_left(struct outbox *outbox)
{
    struct session of = session_of("left", KRBRELAY_PRIV, 0);
    struct sending sending = sending_of(of);
    struct sealing sealing;
    check_is_seen(secret);
    put(outbox, of.name, secret, sizeof secret - 1);
    check(seal_waiting(outbox, &sending, 2) == ANSWER_DONE && sending.texts == 1, "a text waits for another one");
    outbox_rollback(outbox);
    look_for(secret);
    seal_free(&sending);
    check(found_left() == 0, "a sender that ends leaves it nowhere");
    sending = sending_of(of);
    check(take_waiting(&sealing, outbox, &sending, 1) == ANSWER_DONE
          && sealing.count == 1, "a record waits to be sealed");
    outbox_rollback(outbox);
    look_for(secret);
    seal_end(&sealing);
    seal_free(&sending);
    check(found_left() == 0, "nor does one that ends before it is sealed");
}

static uint64_t next_of(struct outbox *outbox, const struct session *of)
{
    struct outbox_progress it;
    check(outbox_load(outbox, of, &it) == ANSWER_DONE, "the outbox tells how far a session is");
    return it.next;
}

/* A number that isn't the stored one moves nothing. */
static void test_compare(struct outbox *outbox)
{
    struct session of = session_of("compare", KRBRELAY_SAFE, 5);
    static const uint64_t wrong[] = { 5, 8, 10, 0, UINT32_MAX };
    size_t i;
    check(outbox_begin(outbox) == ANSWER_DONE, "a transaction begins");
    check(next_of(outbox, &of) == 5, "a session begins at its first number");
    check(outbox_set_next(outbox, &of, 5, 9) == ANSWER_DONE && next_of(outbox, &of) == 9, "the next number is stored");
    for (i = 0; i < sizeof wrong / sizeof *wrong; i++) {
        check(outbox_set_next(outbox, &of, wrong[i], 20) != ANSWER_DONE,
              "another number than the stored one is refused");
        check(next_of(outbox, &of) == 9, "and moves nothing");
    }
    check(outbox_set_next(outbox, &of, 9, 10) == ANSWER_DONE && next_of(outbox, &of) == 10, "the stored one moves");
    outbox_rollback(outbox);
}

/* ---- the bound of texts that wait */

/* What an insertion of a text, or of the close, answers: its error, or "" for none. */
static const char *insertion(struct outbox *outbox, const char *body)
{
    static char told[200];
    char *error = NULL, text[200];
    snprintf(text, sizeof text, "INSERT INTO text (session, body) VALUES ('many', %s)", body);
    sqlite3_exec(outbox->db, text, NULL, NULL, &error);
    snprintf(told, sizeof told, "%s", error != NULL ? error : "");
    sqlite3_free(error);
    return told;
}

static void run_text(struct outbox *outbox, const char *text)
{
    check(sqlite3_exec(outbox->db, text, NULL, NULL, NULL) == SQLITE_OK, text);
}

static void check_full(struct outbox *outbox, const char *what)
{
    check(strcmp(insertion(outbox, "'more'"), "the outbox is full: as many texts wait as --max-waiting allows") == 0,
          what);
}

/* Texts that wait for being sealed or for a receipt count alike, and a hole in their ids doesn't count. */
static void test_bound(struct outbox *outbox)
{
    int i;
    run_text(outbox, "DELETE FROM text; DELETE FROM sealed");
    check(outbox_bound(outbox, 3) == ANSWER_DONE, "a bound is set");
    for (i = 0; i < 3; i++)
        check(insertion(outbox, "'text'")[0] == 0, "a text within the bound is taken");
    check_full(outbox, "one more is refused");
    run_text(outbox, "DELETE FROM text WHERE id = (SELECT min(id) FROM text) + 1");
    check(insertion(outbox, "'text'")[0] == 0, "once one is sealed, one more is taken");
    check_full(outbox, "and no second one");
    run_text(outbox, "INSERT INTO sealed SELECT id, session, 1, 0, 0 FROM text; DELETE FROM text");
    check_full(outbox, "texts that wait for a receipt count");
    run_text(outbox, "DELETE FROM sealed WHERE text = (SELECT max(text) FROM sealed)");
    check(insertion(outbox, "'text'")[0] == 0, "a receipt makes room");
    check_full(outbox, "for one text");
    check(outbox_bound(outbox, 1) == ANSWER_DONE
          && insertion(outbox, "NULL")[0] == 0, "the close is taken in any case");
    check(outbox_bound(outbox, 0) == ANSWER_DONE, "the bound is taken away");
    run_text(outbox, "DELETE FROM closed");
    check(insertion(outbox, "'text'")[0] == 0, "then any number may wait");
}

/* How long texts took is counted once the transaction that drops them is committed, in the bucket of so many seconds; of one
 * of an older version, which doesn't say when it was put in, it isn't. */
static void test_delays(struct outbox *outbox)
{
    struct session of = session_of("delays", KRBRELAY_SAFE, 1);
    struct sending sending = sending_of(of);
    const struct delays none = { .seconds = 0 };
    int i;
    run_text(outbox, "DELETE FROM text; DELETE FROM sealed");
    for (i = 0; i < 3; i++)
        put(outbox, of.name, bytes, 5);
    run_text(outbox, "UPDATE text SET since = since - 50 WHERE id = (SELECT min(id) FROM text);"
             "UPDATE text SET since = 0 WHERE id = (SELECT max(id) FROM text)");
    check(seal_and_commit(outbox, &sending, 1) == ANSWER_DONE, "they are sealed");
    check(outbox_begin(outbox) == ANSWER_DONE && outbox_drop_done(outbox, of.name, 4) == ANSWER_DONE, "they are done");
    outbox_rollback(outbox);
    check(memcmp(&outbox->delays, &none, sizeof none) == 0, "which counts for nothing while it isn't committed");
    for (i = 1; i <= 4; i++)
        check(outbox_begin(outbox) == ANSWER_DONE && outbox_drop_done(outbox, of.name, (uint64_t)i) == ANSWER_DONE
              && outbox_commit(outbox) == ANSWER_DONE, "one after the other is done");
    check(outbox->delays.counts[8] == 1 && outbox->delays.seconds > 50 && outbox->delays.seconds < 80,
          "the first took more than 30 seconds, and 100 at most");
    for (i = 0; i < 8; i++)
        outbox->delays.counts[8] += outbox->delays.counts[i];
    check(outbox->delays.counts[8] == 2, "the second fewer, and the third isn't counted");
    run_text(outbox, "DELETE FROM text");
    seal_free(&sending);
}

/* A history, each of whose bytes is this one. */
static struct history history_of(int byte)
{
    struct history it = { .is_known = 1 };
    memset(it.bytes, byte, sizeof it.bytes);
    return it;
}

/* Frames are dropped below the number that is done. The history up to a frame stands beside it; where it doesn't,
 * as of a frame of an older version, it goes on from that of what is done over frames without a gap. */
static void test_done(struct outbox *outbox)
{
    const struct history done = history_of(1), beside = history_of(2), unknown = { .is_known = 0 };
    struct history goes_on = done;
    struct session of = session_of("done", KRBRELAY_SAFE, 1);
    struct outbox_progress it;
    struct history found_history;
    const uint8_t *found = NULL;
    uint64_t number = 0;
    size_t len = 0;
    check(outbox_begin(outbox) == ANSWER_DONE && outbox_set_next(outbox, &of, 1, 6) == ANSWER_DONE
          && outbox_add_frame(outbox, of.name, 1, bytes, 3, &unknown) == ANSWER_DONE
          && outbox_add_frame(outbox, of.name, 2, bytes, 3, &unknown) == ANSWER_DONE
          && outbox_add_frame(outbox, of.name, 4, bytes, 3, &unknown) == ANSWER_DONE
          && outbox_add_frame(outbox, of.name, 5, bytes, 3, &beside) == ANSWER_DONE
          && outbox_insert(outbox) == ANSWER_DONE,
          "frames are stored");
    check(outbox_load(outbox, &of, &it) == ANSWER_DONE, "the outbox tells how far a session is");
    it.carried = it.done = 2;
    check(outbox_set_carried(outbox, of.name, &it) == ANSWER_DONE
          && outbox_drop_done(outbox, of.name, it.done) == ANSWER_DONE,
          "the first frame is done");
    outbox_select_frames(outbox, of.name, 0, 10);
    check(outbox_next_frame(outbox, &number, &found, &len) == ANSWER_FOUND && number == 2, "the next one is kept");
    outbox_end_frames(outbox);
    check(history_add(&goes_on, bytes, 3) == 0, "a frame is added to a history");
    check(outbox_history(outbox, &of, 2, &done, 3, &found_history) == ANSWER_DONE
          && history_is(&found_history, &goes_on),
          "it goes on over the frame");
    check(outbox_history(outbox, &of, 2, &done, 2, &found_history) == ANSWER_DONE && history_is(&found_history, &done),
          "nothing follows what is done");
    check(outbox_history(outbox, &of, 2, &done, 6, &found_history) == ANSWER_DONE
          && history_is(&found_history, &beside),
          "it stands beside its last frame");
    check(outbox_history(outbox, &of, 2, &done, 5, &found_history) == ANSWER_DONE && !found_history.is_known,
          "one that lacks a frame isn't known");
    check(outbox_history(outbox, &of, 2, &unknown, 3, &found_history) == ANSWER_DONE && !found_history.is_known,
          "nor one after an unknown one");
    check(outbox_history(outbox, &of, 1, &unknown, 1, &found_history) == ANSWER_DONE
          && history_is(&found_history, &of_none),
          "before the first frame it is that of none");
    outbox_rollback(outbox);
}

/* The number that a question has for its answer. */
static int number_of(struct outbox *outbox, const char *question)
{
    sqlite3_stmt *select = NULL;
    int number = -1;
    check(sqlite3_prepare_v2(outbox->db, question, -1, &select, NULL) == SQLITE_OK, "it is a question");
    if (sqlite3_step(select) == SQLITE_ROW)
        number = sqlite3_column_int(select, 0);
    sqlite3_finalize(select);
    return number;
}

static const char five_sessions[] =
    "WITH RECURSIVE turns (turn) AS (SELECT 1 UNION ALL SELECT turn + 1 FROM turns WHERE turn < 5)"
    " INSERT INTO opened SELECT 'of-' || turn, 'stream', turn, '', 3, 0, 1, 18, 1, 18, x'00' FROM turns;"
    "INSERT INTO session (name, next, carried, at, done) SELECT name, 5, 5, 0, 5 FROM opened;"
    "INSERT INTO frame (session, number, frame) VALUES ('of-4', 4, x'00')";

/* Of five sessions of a stream, and a sixth that begins, those are forgotten that end before the fifth, unless they
 * or the ones after them have a frame. */
static void test_ended(struct outbox *outbox)
{
    struct begun sixth = { .turn = 6 };
    static struct ended ended;
    strcpy(sixth.opened.stream, "stream");
    check(sqlite3_exec(outbox->db, five_sessions, NULL, NULL, NULL) == SQLITE_OK, "a stream has five sessions");
    ended.count = ENDED;
    check(outbox_forget_ended(outbox, &sixth, &ended) == ANSWER_DONE
          && ended.count == ENDED, "none where the list is full");
    ended.count = ENDED - 1;
    check(outbox_forget_ended(outbox, &sixth, &ended) == ANSWER_DONE && ended.count == ENDED
          && strcmp(ended.at[ENDED - 1].name, "of-1") == 0, "one where it has room for one");
    ended.count = 1;
    check(outbox_forget_ended(outbox, &sixth, &ended) == ANSWER_DONE && ended.count == 2 && ended.at[1].shard == 3
          && strcmp(ended.at[1].name, "of-2") == 0, "and then the next");
    check(number_of(outbox, "SELECT sum(turn) FROM opened") == 3 + 4 + 5
          && number_of(outbox, "SELECT count(*) FROM session WHERE name LIKE 'of-%'") == 3, "and their rows");
    check(outbox_forget_ended(outbox, &sixth, &ended) == ANSWER_DONE && ended.count == 2, "no other one");
    check(sqlite3_exec(outbox->db, "DELETE FROM frame WHERE session = 'of-4';"
                       "UPDATE session SET done = 4 WHERE name = 'of-3'", NULL, NULL, NULL) == SQLITE_OK
          && outbox_forget_ended(outbox, &sixth, &ended) == ANSWER_DONE
          && ended.count == 4, "two more without the frame");
    check(number_of(outbox, "SELECT sum(turn) FROM opened") == 5
          && number_of(outbox, "SELECT count(*) FROM session WHERE name IN ('of-3', 'of-5')") == 2
          && number_of(outbox, "SELECT count(*) FROM session WHERE name = 'of-4'") == 0,
          "the row of one of which something waits for a receipt stays");
}

/* Who opens the outbox takes the turn. */
static void test_owner(struct outbox *outbox, const char *path)
{
    struct outbox other;
    check(outbox_begin(outbox) == ANSWER_DONE, "its owner begins a transaction");
    outbox_rollback(outbox);
    check(outbox_open(&other, path) == ANSWER_DONE, "another sender opens the outbox");
    check(outbox_begin(outbox) == ANSWER_TAKEN, "the first one's turn is over");
    check(outbox_begin(&other) == ANSWER_DONE, "it is the other's");
    outbox_rollback(&other);
    outbox_close(&other);
}

int main(int count, char **words)
{
    struct outbox outbox = { 0 };
    char path[4096];
    size_t i;
    umask(077); /* as the programs: databases are their owner's alone */
    check_only(2, count, words);
    check(count >= 2, "outbox_test FOLDER [TEST..]");
    for (i = 0; i < LONGEST; i++)
        bytes[i] = (uint8_t)(i * 7 + i / 256);
    snprintf(path, sizeof path, "%s/outbox.db", words[1]);
    check(outbox_open(&outbox, path) == ANSWER_DONE, "an outbox is opened");
    RUN(test_texts(&outbox));
    check(sqlite3_exec(outbox.db, "DELETE FROM text; DELETE FROM sealed", NULL, NULL, NULL) == SQLITE_OK, "texts are taken");
    RUN(test_confounders(&outbox));
    check(sqlite3_exec(outbox.db, "DELETE FROM text; DELETE FROM sealed", NULL, NULL, NULL) == SQLITE_OK, "texts are taken");
    RUN(test_last_number(&outbox));
    check(sqlite3_exec(outbox.db, "DELETE FROM text; DELETE FROM sealed", NULL, NULL, NULL) == SQLITE_OK, "texts are taken");
    RUN(test_taken_back(&outbox));
    check(sqlite3_exec(outbox.db, "DELETE FROM text; DELETE FROM sealed", NULL, NULL, NULL) == SQLITE_OK, "texts are taken");
    RUN(test_waiting(&outbox));
    check(sqlite3_exec(outbox.db, "DELETE FROM text; DELETE FROM sealed", NULL, NULL, NULL) == SQLITE_OK, "texts are taken");
    RUN(test_noted(&outbox));
    check(sqlite3_exec(outbox.db, "DELETE FROM text; DELETE FROM sealed", NULL, NULL, NULL) == SQLITE_OK, "texts are taken");
    RUN(test_nothing_left(&outbox));
    RUN(test_compare(&outbox));
    RUN(test_bound(&outbox));
    RUN(test_delays(&outbox));
    RUN(test_done(&outbox));
    RUN(test_ended(&outbox));
    RUN(test_owner(&outbox, path));
    outbox_close(&outbox);
    return check_status("outbox_test");
}
