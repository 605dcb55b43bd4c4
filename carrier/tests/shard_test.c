/* What a shard takes of frames, among them those of an independent sealer, that nothing of a transaction is
 * stored if an effect of it fails, and what is left in memory:
 *     shard_test FOLDER
 * Built with -Wl,--wrap=free,--wrap=krbrelay_opener_open,--wrap=krbrelay_receiver_take_many,--wrap=openings_find,
 * --wrap=opening_session,--wrap=log_fields. */
#include "check.h"
#include "clock.h"
#include "effects.h"
#include "stored_openings.h"
#include "log.h"
#include "receipts.h"
#include "shard.h"
#include "wrapped.h"

#include "../../c/tests/frames.h"

#include <sqlite3.h>
#include <string.h>
#include <sys/stat.h>

enum { NUMBER = 7, SHARD = 3, STEPS = 20, BATCH = 16 };

static const void *watched;
static size_t left;             /* so many bytes that aren't zero stood in it when it was freed */
static int freed;

WRAPPED(free);
WRAPPED(krbrelay_opener_open);
WRAPPED(krbrelay_receiver_take_many);
WRAPPED(openings_find);
WRAPPED(opening_session);
WRAPPED(log_fields);

void __wrap_free(void *block)
{
    size_t i;
    for (i = 0; block != NULL && block == watched && i < KRBRELAY_FRAME_LIMIT; i++)
        left += ((const uint8_t *)block)[i] != 0;
    freed += block != NULL && block == watched;
    __real_free(block);
}

static int opened;              /* frames that were opened beside the receiver */

enum krbrelay_answer __wrap_krbrelay_opener_open(struct krbrelay_opener *handle, const uint8_t *frame, size_t len,
                                                 const struct krbrelay_demand *demand,
                                                 const struct krbrelay_moment *at, uint8_t *user_data,
                                                 size_t room, size_t *size, struct krbrelay_carried *carried)
{
    opened++;
    return __real_krbrelay_opener_open(handle, frame, len, demand, at, user_data, room, size, carried);
}

static size_t most_together;    /* so many frames were taken in one call at most */

enum krbrelay_answer __wrap_krbrelay_receiver_take_many(struct krbrelay_receiver *handle,
                                                        const struct krbrelay_frame *frames, size_t count,
                                                        const struct krbrelay_moment *at, uint8_t *bytes,
                                                        size_t room, struct krbrelay_taken *taken)
{
    most_together = count > most_together ? count : most_together;
    return __real_krbrelay_receiver_take_many(handle, frames, count, at, bytes, room, taken);
}

/* Sessions of streams that the store has: keys are tom's, and can be read or not. */
static const struct opened streams[] = {
    { .name = "one", .stream = "a", .shard = SHARD },
    { .name = "two", .stream = "a", .before = "one", .shard = SHARD },
    { .name = "three", .stream = "b", .shard = SHARD },
    { .name = "four", .stream = "b", .before = "three", .shard = SHARD },
    { .name = "five", .stream = "c", .shard = SHARD + 1 },
    { .name = "six", .stream = "d", .shard = SHARD + 1 },
    { .name = "seven", .stream = "d", .before = "six", .shard = SHARD },
    { .name = "eight", .stream = "e", .before = "five", .shard = SHARD },
};
enum { STREAMS = sizeof streams / sizeof *streams };
static const char *unreadable = "";

enum answer __wrap_openings_find(struct store *store, struct kerberos *kerberos, const char *name, openings_take *take,
                                 void *given)
{
    size_t i;
    (void)store;
    (void)kerberos;
    for (i = 0; i < STREAMS; i++)
        if (strcmp(streams[i].name, name) == 0 && strcmp(unreadable, name) != 0)
            return take(given, &streams[i]);
    return ANSWER_DONE;
}

static int behind;              /* so often the store was said to have gone back */

void __wrap_log_fields(enum level level, const char *event, const struct field *fields)
{
    behind += strcmp(event, "store_behind") == 0;
    __real_log_fields(level, event, fields);
}

static const struct session *tom;

int __wrap_opening_session(struct kerberos *kerberos, const struct opened *it, unsigned number, struct session *of)
{
    (void)kerberos;
    *of = *tom;
    of->shard = number;
    of->first = 1;
    of->has_opening = 1;
    memcpy(of->name, it->name, sizeof of->name);
    return 0;
}

static struct sessions *sessions_in(const char *folder)
{
    static char path[4096];
    struct sessions *read;
    FILE *file;
    snprintf(path, sizeof path, "%s/sessions", folder);
    file = fopen(path, "w");
    check(file != NULL && chmod(path, 0600) == 0
          && fputs("tom 3 17 safe 000102030405060708090a0b0c0d0e0f 7 10.0.0.1 10.0.0.255\n", file) >= 0
          && fclose(file) == 0, "a file of sessions is written");
    read = sessions_read(path);
    check(read != NULL, "it is read");
    return read;
}

static void publish_as(struct carrier *carrier, const char *name, uint64_t number, const uint8_t *frame, size_t len)
{
    static struct confirmed list[1];
    size_t count;
    int tries;
    check(carrier->publish(carrier, SHARD, name, 0, number, frame, len) == ANSWER_DONE, "a frame is published");
    for (tries = 0; tries < STEPS; tries++)
        if (carrier->confirmed(carrier, list, 1, &count) == ANSWER_DONE && count == 1)
            return;
    check(0, "it is confirmed");
}

static void publish(struct carrier *carrier, const uint8_t *frame, size_t len)
{
    publish_as(carrier, "tom", NUMBER, frame, len);
}

/* A step, and its rest. */
static int step(struct shard *shard)
{
    uint64_t until = 0, again = 0;
    int count = shard_step(shard, &until);
    while (milliseconds() < shard->rests) {
        check(until <= shard->rests, "the next step is due after the rest, or with a receipt before");
        pause_milliseconds(10);
        check(milliseconds() >= shard->rests || (shard_step(shard, &again) == 0 && again <= shard->rests),
              "one that is woken before does nothing but pay a receipt");
    }
    return count;
}

static void take(struct shard *shard)
{
    int tries;
    for (tries = 0; tries < STEPS; tries++)
        check(step(shard) >= 0, "a step of the shard");
}

/* A message that has no time could be of any age, so such a frame is refused. */
static void test_times(struct shard *shard, struct carrier *carrier)
{
    publish(carrier, safe_17_timeless, sizeof safe_17_timeless);
    take(shard);
    check(shard->counts.texts == 0, "a frame without a time takes no effect");
    publish(carrier, safe_17_no_usec, sizeof safe_17_no_usec);
    publish(carrier, safe_17, sizeof safe_17);
    take(shard);
    check(shard->counts.texts == 1, "one with its time does");
}

/* ---- Records of several texts, and effects that fail */

static const char *const texts[] = { "first", "", "refused", "last" };
enum { TEXTS = sizeof texts / sizeof *texts };

/* Publishes a session's record of this kind under this number. */
static void publish_record(struct carrier *carrier, const char *name, uint32_t number, uint32_t kind,
                           const uint8_t *bytes, size_t size)
{
    static const uint8_t key[16] = { 0, 1, 2, 3, 4, 5, 6, 7, 8, 9, 10, 11, 12, 13, 14, 15 };
    static const uint8_t confounder[16] = { 0 };
    static uint8_t frame[KRBRELAY_FRAME_LIMIT];
    const struct krbrelay_session session = { .mode = KRBRELAY_SAFE, .first = number,
                                              .sender = { 2, 4, { 10, 0, 0, 1 } } };
    struct krbrelay_sealer sealer = KRBRELAY_INIT;
    struct krbrelay_moment now;
    size_t len = 0;
    check(krbrelay_now(&now) == KRBRELAY_OK
          && krbrelay_sealer_new(&sealer, 17, key, sizeof key, &session) == KRBRELAY_OK
          && krbrelay_sealer_seal_record(&sealer, kind, bytes, size, &now, confounder, frame, sizeof frame, &len)
          == KRBRELAY_OK, "a record is sealed");
    krbrelay_sealer_free(&sealer);
    publish_as(carrier, name, number, frame, len);
}

/* The same of a batch of the first so many texts. */
static void publish_texts_as(struct carrier *carrier, const char *name, uint32_t number, size_t count)
{
    uint8_t batch[64];
    size_t size = 0, i;
    for (i = 0; i < count; i++)
        check(krbrelay_batch_add(batch, sizeof batch, &size, (const uint8_t *)texts[i], strlen(texts[i]))
              == KRBRELAY_OK, "a batch has room for its texts");
    publish_record(carrier, name, number, KRBRELAY_BATCH, batch, size);
}

static void publish_texts(struct carrier *carrier, uint32_t number, size_t count)
{
    publish_texts_as(carrier, "tom", number, count);
}

/* The one number that a query of the store tells. */
static int64_t told(sqlite3 *store, const char *query)
{
    sqlite3_stmt *select = NULL;
    int64_t number;
    check(sqlite3_prepare_v2(store, query, -1, &select, NULL) == SQLITE_OK
          && sqlite3_step(select) == SQLITE_ROW, "the store is asked");
    number = sqlite3_column_int64(select, 0);
    check(sqlite3_finalize(select) == SQLITE_OK, "it has answered");
    return number;
}

static void change(sqlite3 *store, const char *statement)
{
    check(sqlite3_exec(store, statement, NULL, NULL, NULL) == SQLITE_OK, "the store is changed");
}

/* Whether the effects of this number are the first so many texts, each once, under its part. */
static int has_texts(sqlite3 *store, int64_t number, unsigned count)
{
    sqlite3_stmt *select = NULL;
    unsigned at = 0;
    check(sqlite3_prepare_v2(store, "SELECT part, text FROM effect WHERE number = ? ORDER BY id", -1, &select,
                             NULL) == SQLITE_OK
          && sqlite3_bind_int64(select, 1, number) == SQLITE_OK, "the effects are asked for");
    while (sqlite3_step(select) == SQLITE_ROW && at < count
           && sqlite3_column_int64(select, 0) == at
           && (size_t)sqlite3_column_bytes(select, 1) == strlen(texts[at])
           && (texts[at][0] == 0 || memcmp(sqlite3_column_blob(select, 1), texts[at], strlen(texts[at])) == 0))
        at++;
    check(sqlite3_finalize(select) == SQLITE_OK, "that is answered");
    return at == count && (unsigned)told(store, "SELECT count(*) FROM effect WHERE number > 7") == count;
}

static const char refuses[] = "CREATE TRIGGER refuses BEFORE INSERT ON effect WHEN NEW.text = CAST('refused' AS BLOB)"
                              " BEGIN SELECT RAISE(ABORT, 'refused'); END";

/* A step whose effect fails says so, each time. */
static void fail(struct shard *shard)
{
    int tries, failed = 0;
    for (tries = 0; tries < STEPS && failed < 2; tries++)
        failed += step(shard) < 0;
    check(failed == 2, "a step whose effect fails says so, each time");
}

/* An effect fails in the middle of a record. Nothing of its transaction is stored, and once the effect is
 * possible again, all of it is: each text once, under its own part. */
static void test_failing_effect(struct shard *shard, struct carrier *carrier, sqlite3 *store)
{
    change(store, refuses);
    publish_texts(carrier, NUMBER + 1, TEXTS);
    fail(shard);
    check(has_texts(store, NUMBER + 1, 0), "none of its texts took effect");
    check(told(store, "SELECT next FROM session WHERE name = 'tom'") == NUMBER + 1, "its number is still demanded");
    change(store, "DROP TRIGGER refuses");
    take(shard);
    check(has_texts(store, NUMBER + 1, TEXTS), "then each text takes effect, once");
    check(told(store, "SELECT next FROM session WHERE name = 'tom'") == NUMBER + 2, "and its number is passed");
}

/* The receiver tells the number of a frame that fails no other check, so it isn't opened once more. One that fails
 * another check is. */
static void test_opened_once(struct shard *shard, struct carrier *carrier)
{
    int before = opened;
    uint64_t repeats = shard->counts.repeats, early = shard->counts.early;
    publish_texts(carrier, NUMBER + 1, 2);
    publish_texts(carrier, NUMBER + 5, 2);
    take(shard);
    check(shard->counts.repeats == repeats + 1, "a frame that comes again is a repeat");
    check(shard->counts.early == early + 1, "one that comes too early is known");
    check(opened == before, "neither is opened twice");
    publish(carrier, safe_17_timeless, sizeof safe_17_timeless);
    take(shard);
    check(opened == before + 1, "one without a time is, and its number tells that it is a repeat");
    check(shard->counts.repeats == repeats + 2, "so it is counted");
}

/* Frames of a session that follow one another are taken in one call. One of them that is refused, and opened to look
 * at its number, leaves the texts of the others as they are. */
static void test_together(struct shard *shard, struct carrier *carrier, sqlite3 *store)
{
    int before = opened;
    most_together = 0;
    publish(carrier, safe_17_timeless, sizeof safe_17_timeless);
    publish_texts(carrier, NUMBER + 2, 2);
    publish_texts(carrier, NUMBER + 3, 2);
    publish_texts(carrier, NUMBER + 4, TEXTS);
    take(shard);
    check(most_together == 4, "four frames are taken in one call");
    check(opened == before + 1, "the one without a time is opened once more");
    check(told(store, "SELECT next FROM session WHERE name = 'tom'") == NUMBER + 5, "the others are accepted");
    check(told(store, "SELECT count(*) FROM effect WHERE number BETWEEN 9 AND 11") == 2 + 2 + TEXTS
          && told(store, "SELECT count(*) FROM effect WHERE number BETWEEN 9 AND 11 AND part = 0"
                         " AND text = CAST('first' AS BLOB)") == 3
          && told(store, "SELECT count(*) FROM effect WHERE number BETWEEN 9 AND 11 AND part = 1"
                         " AND length(text) = 0") == 3
          && told(store, "SELECT count(*) FROM effect WHERE number = 11 AND part = 3"
                         " AND text = CAST('last' AS BLOB)") == 1,
          "and each text takes effect as it is");
}

/* A frame of the longest text. The other one that follows has no room beside it, so each is taken in a call of its own. */
static void publish_longest(struct carrier *carrier, uint32_t number)
{
    static uint8_t text[KRBRELAY_USER_DATA_LIMIT - 1];
    memset(text, (int)number, sizeof text);
    publish_record(carrier, "tom", number, KRBRELAY_TEXT, text, sizeof text);
}

static void test_longest(struct shard *shard, struct carrier *carrier, sqlite3 *store)
{
    most_together = 0;
    publish_longest(carrier, NUMBER + 6);
    publish_longest(carrier, NUMBER + 7);
    take(shard);
    check(most_together == 1, "frames that are together too long are taken one by one");
    check(told(store, "SELECT next FROM session WHERE name = 'tom'") == NUMBER + 8, "both are accepted");
    check(told(store, "SELECT count(*) FROM effect WHERE number IN (13, 14) AND length(text) = 1000000") == 2
          && told(store, "SELECT count(*) FROM effect WHERE number = 13 AND text = CAST(replace(hex(zeroblob(1000000)), '00',"
                         " char(13)) AS BLOB)") == 1
          && told(store, "SELECT count(*) FROM effect WHERE number = 14 AND text = CAST(replace(hex(zeroblob(1000000)), '00',"
                         " char(14)) AS BLOB)") == 1, "and each text takes effect whole");
}

/* The same of an effect that is run at once, and not with others when the transaction ends. */
static void test_failing_statement(struct shard *shard, struct carrier *carrier, sqlite3 *store)
{
    check(effects_choose("sql:INSERT INTO effect (session, number, part, text, client, stream)"
                         " VALUES (:session, :number, :part, :text, :client, :stream)", 0) == ANSWER_DONE, "it is a statement");
    change(store, refuses);
    publish_texts(carrier, NUMBER + 5, TEXTS);
    fail(shard);
    check(told(store, "SELECT count(*) FROM effect WHERE number = 12") == 0, "none of its texts took effect");
    check(told(store, "SELECT next FROM session WHERE name = 'tom'") == NUMBER + 5, "its number is still demanded");
    change(store, "DROP TRIGGER refuses");
    take(shard);
    check(told(store, "SELECT count(DISTINCT part) FROM effect WHERE number = 12") == TEXTS
          && told(store, "SELECT count(*) FROM effect WHERE number = 12") == TEXTS, "then each takes effect, once");
    check(effects_choose(NULL, 0) == ANSWER_DONE, "the effect is of effect.c again");
}

/* The store is restored as it was some frames ago, below a receiver that goes on: it says so, and reads the frames again. */
static void test_store_behind(struct shard *shard, struct carrier *carrier, sqlite3 *store)
{
    uint64_t repeats = shard->counts.repeats;
    int64_t offset = told(store, "SELECT offset FROM shard WHERE shard = 3");
    publish_texts(carrier, NUMBER + 1, 2);
    take(shard);
    check(behind == 0 && shard->counts.repeats == repeats + 1, "a store that is as it was isn't behind");
    check(told(store, "SELECT offset FROM shard WHERE shard = 3") == offset + 1, "it has one frame more");
    change(store, "UPDATE shard SET offset = offset - 1 WHERE shard = 3");
    shard->looked_at = 0;
    take(shard);
    check(behind == 1, "the receiver says once that it has gone back");
    check(shard->counts.repeats == repeats + 2, "and its frame is read again");
}

/* A session of a stream whose turn hasn't come, as far as the receiver sees: its frame comes too early. */
static void publish_early(struct shard *shard, struct carrier *carrier, const char *name)
{
    uint64_t early = shard->counts.early, accepted = shard->counts.accepted;
    publish_texts_as(carrier, name, 1, 2);
    take(shard);
    check(shard->counts.early == early + 1 && shard->counts.accepted == accepted, "its frame comes too early");
}

/* Its frame comes again, and is accepted. */
static void publish_again(struct shard *shard, struct carrier *carrier, const char *name)
{
    uint64_t accepted = shard->counts.accepted;
    publish_texts_as(carrier, name, 1, 2);
    take(shard);
    check(shard->counts.accepted == accepted + 1, "then it is accepted");
}

/* The key of the session before can't be read for a moment: it is looked for again with the next frame. */
static void test_before_unreadable(struct shard *shard, struct carrier *carrier, sqlite3 *store)
{
    change(store, "INSERT INTO session (name, next, closed, shard) VALUES ('one', 2, 1, 3), ('two', 1, 0, 3)");
    unreadable = "one";
    publish_early(shard, carrier, "two");
    unreadable = "";
    publish_again(shard, carrier, "two");
}

/* A receiver of the version before, of another shard in which its frames were written again, goes on with the session
 * before: what is known of it is compared. */
static void test_before_elsewhere(struct shard *shard, struct carrier *carrier, sqlite3 *store)
{
    change(store, "INSERT INTO session (name, next, closed, shard) VALUES ('three', 1, 0, 3), ('four', 1, 0, 3)");
    publish_early(shard, carrier, "four");
    change(store, "UPDATE session SET next = 2, closed = 1, shard = 4 WHERE name = 'three'");
    publish_again(shard, carrier, "four");
}

/* A session of another shard, whose frames somebody copied: they are nobody's here, and what the store has of it
 * stays. */
static void test_elsewhere(struct shard *shard, struct carrier *carrier, sqlite3 *store)
{
    uint64_t accepted = shard->counts.accepted, early = shard->counts.early;
    unsigned long unknown = shard->counts.refused[0];
    change(store, "INSERT INTO session (name, next, closed, shard) VALUES ('five', 1, 0, 4)");
    publish_texts_as(carrier, "five", 1, 2);
    publish_texts_as(carrier, "five", 1, 2);
    take(shard);
    check(shard->counts.refused[0] == unknown + 2, "its frames are counted as those without a line");
    check(shard->counts.accepted == accepted && shard->counts.early == early, "and as nothing else");
    check(told(store, "SELECT count(*) FROM effect WHERE session = 'five'") == 0, "no text takes effect");
    check(told(store, "SELECT next * 10 + shard FROM session WHERE name = 'five'") == 14, "its row stays");
}

/* The session before one of this shard is of it too, though somebody copied its opening, of the version before, into
 * another one. That of another stream isn't. */
static void test_before_copied(struct shard *shard, struct carrier *carrier, sqlite3 *store)
{
    unsigned long unknown;
    change(store, "INSERT INTO session (name, next, closed, shard)"
                  " VALUES ('six', 2, 1, 4), ('seven', 1, 0, 3), ('eight', 1, 0, 3)");
    publish_again(shard, carrier, "seven");
    publish_early(shard, carrier, "eight");
    change(store, "UPDATE session SET next = 2, closed = 1 WHERE name = 'five'");
    publish_early(shard, carrier, "eight");
    unknown = shard->counts.refused[0];
    publish_texts_as(carrier, "five", 1, 2);
    take(shard);
    check(shard->counts.refused[0] == unknown + 1, "nor are its frames somebody's here");
}

/* Sessions of streams, without MIT's library: what the store has of them is above. */
static void test_streams(struct shard *shard, struct carrier *carrier, sqlite3 *store)
{
    static struct session of;
    static char kerberos;
    check(sessions_find(shard->sessions, "tom", &of) && receipt_key(&of) == 0, "the session of the file");
    tom = &of;
    shard->kerberos = (struct kerberos *)&kerberos;
    shard->has_wrapped = 1;
    test_before_unreadable(shard, carrier, store);
    test_before_elsewhere(shard, carrier, store);
    test_elsewhere(shard, carrier, store);
    test_before_copied(shard, carrier, store);
    shard->kerberos = NULL;
}

/* ---- A carrier that takes no receipts for a while */

static int takes_none, offered;
static enum answer (*acknowledge)(struct carrier *, unsigned, const struct carried *, size_t);

static enum answer acknowledge_or_not(struct carrier *c, unsigned shard, const struct carried *list, size_t count)
{
    offered += takes_none;
    return takes_none ? ANSWER_FAULT : acknowledge(c, shard, list, count);
}

/* A receipt that didn't leave is owed still: it leaves without another frame. */
static void test_receipt_that_stays(struct shard *shard, struct carrier *carrier)
{
    struct carrier *of_shard = shard->carrier;
    uint64_t receipts = shard->counts.receipts;
    int tries;
    acknowledge = of_shard->acknowledge;
    of_shard->acknowledge = acknowledge_or_not;
    takes_none = 1;
    publish_texts(carrier, NUMBER + 8, 2);
    for (tries = 0; tries < 10 * STEPS && offered < 2; tries++) {
        check(step(shard) >= 0, "a step while the carrier takes no receipt");
        pause_milliseconds(10);
    }
    check(offered >= 2 && shard->counts.receipts == receipts, "the receipt is offered again, and none has left");
    takes_none = 0;
    for (tries = 0; tries < 10 * STEPS && shard->counts.receipts == receipts; tries++) {
        check(step(shard) >= 0, "a step where it takes them");
        pause_milliseconds(10);
    }
    check(shard->counts.receipts == receipts + 1, "then it leaves");
    of_shard->acknowledge = acknowledge;
}

int main(int count, char **words)
{
    static char store[4096], where[4096];
    struct shard_options options = { .store = store, .batch = BATCH, .skew = UINT32_MAX };
    struct shard shard = { .options = &options, .number = SHARD };
    struct sessions *sessions;
    struct carrier *carrier;
    sqlite3 *asked = NULL;
    uint64_t list = 0;
    umask(077); /* as the programs: databases are their owner's alone */
    check(count == 2, "shard_test FOLDER");
    snprintf(store, sizeof store, "sqlite:%s/shard.db", words[1]);
    snprintf(where, sizeof where, "sqlite:%s/frames.db", words[1]);
    options.carrier.where = where;
    sessions = sessions_in(words[1]);
    carrier = carrier_open(&options.carrier);
    check(carrier != NULL && carrier->make(carrier, SHARD, &list) == ANSWER_DONE, "a shard is made");
    check(effects_choose(NULL, 0) == ANSWER_DONE, "the effect is of effect.c");
    check(shard_start(&shard) == ANSWER_DONE, "it is opened");
    shard_use(&shard, sessions);
    check(sqlite3_open(store + strlen("sqlite:"), &asked) == SQLITE_OK
          && sqlite3_busy_timeout(asked, 2000) == SQLITE_OK, "its store is opened beside it");
    test_times(&shard, carrier);
    test_failing_effect(&shard, carrier, asked);
    test_opened_once(&shard, carrier);
    test_together(&shard, carrier, asked);
    test_failing_statement(&shard, carrier, asked);
    test_longest(&shard, carrier, asked);
    test_store_behind(&shard, carrier, asked);
    test_receipt_that_stays(&shard, carrier);
    test_streams(&shard, carrier, asked);
    check(sqlite3_close(asked) == SQLITE_OK, "it is closed");
    watched = shard.bytes;
    memset(shard.bytes, 'x', KRBRELAY_FRAME_LIMIT);
    shard_stop(&shard);
    check(freed == 1 && left == 0, "what was received isn't left in memory");
    carrier->close(carrier);
    sessions_forget(sessions);
    return check_status("shard_test");
}
