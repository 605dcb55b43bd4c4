/* Fails the power before each sync and deletion of an outbox, a store and a carrier over SQLite
 * (power.h), and looks at what a process finds that opens them then:  power_test FOLDER
 * What was said to be committed or confirmed is there, whole, and in its order. */
#include "carrier.h"
#include "check.h"
#include "effect.h"
#include "power.h"
#include "seal.h"

#include <string.h>
#include <sys/stat.h>
#include <sys/wait.h>
#include <unistd.h>

enum { TEXTS = 4, SHARD = 900, LIST = 77, SEEDS = 3, MOST = 2000, PATH = 512 };
enum kind { PUT = 'p', LEFT = 'l', TOOK = 't', CONFIRMED = 'c' };

/* What a process says before the power fails: of its kind, this number, with the frame's last bytes. */
struct told { enum kind kind; uint64_t number, tail; };

static struct told all_told[10 * TEXTS];
static size_t told_count;
static char outbox_path[PATH], store_path[PATH], carrier_path[PATH];
static int pipe_ends[2];

static void tell(enum kind kind, uint64_t number, uint64_t tail)
{
    const struct told it = { kind, number, tail };
    check(write(pipe_ends[1], &it, sizeof it) == (ssize_t)sizeof it, "it is told");
}

static uint64_t tail_of(const uint8_t *frame, size_t len)
{
    uint64_t tail = 0;
    check(len >= sizeof tail, "a frame has bytes");
    memcpy(&tail, frame + len - sizeof tail, sizeof tail);
    return tail;
}

/* ---- what the process does whose power fails */

static struct session session_of(void)
{
    struct session it = { .name = "tom-7", .shard = SHARD, .etype = 17, .mode = KRBRELAY_PRIV, .key_len = 16,
                          .first = 1, .from = { .kind = KRBRELAY_IPV4, .len = 4, .bytes = { 10, 0, 0, 1 } } };
    memset(it.key, 7, it.key_len);
    return it;
}

static struct reached at(uint64_t offset)
{
    return (struct reached){ offset > 0 ? LIST : 0, offset };
}

static struct demand demands(uint64_t number)
{
    return (struct demand){ number, 0, MISSED_NOTHING, number - 1, SHARD, number != 1,
                            { .is_known = 0 } };
}

static void put_text(struct outbox *outbox, uint64_t number)
{
    static const char insert[] = "INSERT INTO text (session, body) VALUES ('tom-7', 'hello')";
    check(sqlite3_exec(outbox->db, insert, NULL, NULL, NULL) == SQLITE_OK, "a text is put in");
    tell(PUT, number, 0);
}

/* Its frame may leave as soon as this is written to the pipe. */
static uint64_t seal_one(struct outbox *outbox, struct sending *sending)
{
    struct sealing sealing;
    struct statement *select;
    struct waiting_text text;
    const uint8_t *found = NULL;
    uint64_t number = 0;
    size_t len = 0;
    check(seal_begin(&sealing, outbox, 1) == ANSWER_DONE, "there is memory");
    check(outbox_begin(outbox) == ANSWER_DONE, "a transaction begins");
    select = outbox_select_texts(outbox, 0, 1);
    check(outbox_next_text(select, &text) == ANSWER_FOUND && seal_text(&sealing, sending, &text) == ANSWER_DONE
          && seal_all(&sealing) == ANSWER_DONE, "a text is sealed");
    seal_end(&sealing);
    check(outbox_drop_texts(outbox, text.id, text.id) == ANSWER_DONE, "and taken");
    end_rows(select);
    check(outbox_set_next(outbox, &sending->of, sending->sealed - 1, sending->sealed) == ANSWER_DONE
          && outbox_commit(outbox) == ANSWER_DONE, "it is committed");
    outbox_select_frames(outbox, "tom-7", sending->sealed - 1, 1);
    check(outbox_next_frame(outbox, &number, &found, &len) == ANSWER_FOUND, "the frame is there");
    tell(LEFT, number, tail_of(found, len));
    outbox_end_frames(outbox);
    return number;
}

static void take_one(struct store *store, uint64_t number)
{
    const struct reached from = at(number - 1), to = at(number);
    const struct demand before = demands(number), after = demands(number + 1);
    const struct arrived text = { "tom-7", "", "", number, 0, (const uint8_t *)"hello", 5 };
    check(store_begin(store, SHARD, &from, &to) == ANSWER_DONE && take_effect(store, &text) == ANSWER_DONE
          && store_advance(store, "tom-7", &before, &after) == ANSWER_DONE
          && store->commit(store) == ANSWER_DONE, "a text is taken");
    tell(TOOK, number, 0);
}

static void carry_one(struct carrier *carrier, uint64_t number)
{
    struct confirmed confirmed;
    int tries;
    size_t count = 0;
    check(carrier->publish(carrier, SHARD, "tom-7", 0, number, (const uint8_t *)&number, sizeof number) == ANSWER_DONE,
          "a frame is published");
    for (tries = 0; count == 0 && tries < 10; tries++)
        (void)carrier->confirmed(carrier, &confirmed, 1, &count); /* after a fault none has come */
    check(count == 1 && confirmed.number == number, "and confirmed");
    tell(CONFIRMED, number, 0);
}

/* Opens all, does a half of all, and closes it. */
static void work(uint64_t first, uint64_t end)
{
    struct sending sending = { .of = session_of(), .sealed = first };
    const struct carrier_options options = { .where = carrier_path };
    struct outbox outbox = { 0 };
    struct store *store = store_open(store_path, SHARD);
    struct carrier *carrier = carrier_open(&options);
    uint64_t number, list;
    check(outbox_open(&outbox, outbox_path) == ANSWER_DONE && store != NULL && carrier != NULL, "all are opened");
    check(carrier->make(carrier, SHARD, &list) == ANSWER_DONE, "there is a shard");
    check(krbrelay_sending_load(&sending.end, first, first, 0, first, 0, 0) == KRBRELAY_OK, "its end begins");
    for (number = first; number < end; number++) {
        put_text(&outbox, number);
        check(seal_one(&outbox, &sending) == number, "each has the next number");
        carry_one(carrier, number);
        take_one(store, number);
    }
    seal_free(&sending);
    carrier->close(carrier);
    store->close(store);
    outbox_close(&outbox);
}

static void end_without_power(uint64_t step, uint64_t seed)
{
    close(pipe_ends[0]);
    power_begin(step, seed);
    work(1, TEXTS / 2 + 1);
    work(TEXTS / 2 + 1, TEXTS + 1);
    fflush(stdout);
    _exit(0);
}

/* ---- what is found then */

static uint64_t last_told(enum kind kind)
{
    size_t i;
    uint64_t last = 0;
    for (i = 0; i < told_count; i++)
        last = all_told[i].kind == kind ? all_told[i].number : last;
    return last;
}

/* A frame that left is the only one under its number. */
static void check_left(uint64_t number, const uint8_t *frame, size_t len)
{
    size_t i;
    for (i = 0; i < told_count; i++)
        check(all_told[i].kind != LEFT || all_told[i].number != number || all_told[i].tail == tail_of(frame, len),
              "a frame that left is the one that is stored");
}

static void find_outbox(void)
{
    const struct session of = session_of();
    struct outbox_progress it;
    struct outbox outbox = { 0 };
    const uint8_t *frame = NULL;
    uint64_t number = 0, frames = 0, texts = 0;
    size_t len = 0;
    check(outbox_open(&outbox, outbox_path) == ANSWER_DONE
          && outbox_load(&outbox, &of, &it) == ANSWER_DONE, "the outbox opens");
    check(it.next > last_told(LEFT), "no number of a frame that left is free");
    outbox_select_frames(&outbox, of.name, 0, TEXTS + 1);
    while (outbox_next_frame(&outbox, &number, &frame, &len) == ANSWER_FOUND) {
        check(number == ++frames, "frames are there in their order");
        check_left(number, frame, len);
    }
    outbox_end_frames(&outbox);
    check(frames + 1 == it.next, "each number that was used has its frame");
    check(outbox_count_texts(&outbox, &texts) == ANSWER_DONE && texts + frames >= last_told(PUT),
          "each text is there, or its frame is");
    outbox_close(&outbox);
}

static enum answer note_demand(void *given, const char *session, const struct demand *demand)
{
    (void)session;
    *(struct demand *)given = *demand;
    return ANSWER_DONE;
}

static enum answer note_count(void *given, const char *const *columns)
{
    *(uint64_t *)given = strtoull(columns[0], NULL, 10);
    return ANSWER_DONE;
}

static void find_store(void)
{
    static const char *const names[] = { "tom-7" };
    struct demand demand = { .next = 1 };
    struct reached reached;
    struct store *store = store_open(store_path, SHARD);
    uint64_t effects = 0;
    check(store != NULL && store_reached(store, SHARD, &reached) == ANSWER_DONE
          && store_sessions(store, names, 1, note_demand, &demand) == ANSWER_DONE
          && store->ask(store, "SELECT CAST(count(*) AS TEXT) FROM effect", NULL, 0, note_count,
                        &effects) == ANSWER_DONE,
          "the store opens");
    check(demand.next > last_told(TOOK), "what was taken is taken");
    check(effects + 1 == demand.next && reached.offset == effects, "each text had its effect, and once");
    store->close(store);
}

static void find_carrier(void)
{
    const struct carrier_options options = { .where = carrier_path };
    struct carried found[TEXTS + 1];
    struct carrier *carrier = carrier_open(&options);
    uint64_t list = 0, end = 0, i;
    size_t count = 0;
    check(carrier != NULL
          && carrier->find_list(carrier, SHARD, &list, &end) == ANSWER_DONE, "the carrier opens");
    carrier->seek(carrier, SHARD, 0);
    check(carrier->fetch(carrier, found, TEXTS + 1, &count) == ANSWER_DONE
          && count >= last_told(CONFIRMED), "what was confirmed is there");
    for (i = 0; i < count; i++) {
        uint64_t number = i + 1;
        check(found[i].len == sizeof number && memcmp(found[i].frame, &number, sizeof number) == 0,
              "in its order, as it was");
    }
    carrier->close(carrier);
}

/* ---- each step */

static void remove_all(const char *folder)
{
    static const char *const files[] = { "power_outbox.db", "power_store.db", "power_carrier.db" };
    static const char *const ends[] = { "", "-wal", "-shm", "-journal" };
    char path[PATH];
    size_t i, k;
    for (i = 0; i < sizeof files / sizeof *files; i++)
        for (k = 0; k < sizeof ends / sizeof *ends; k++) {
            snprintf(path, sizeof path, "%s/%s%s", folder, files[i], ends[k]);
            unlink(path);
        }
}

/* Whether the process came to its end before that step. */
static int try_step(uint64_t step, uint64_t seed)
{
    int status = 0;
    pid_t child;
    ssize_t len;
    check(pipe(pipe_ends) == 0, "a pipe");
    child = fork();
    if (child == 0)
        end_without_power(step, seed);
    close(pipe_ends[1]);
    for (told_count = 0; (len = read(pipe_ends[0], &all_told[told_count], sizeof *all_told)) > 0; told_count++)
        check(len == (ssize_t)sizeof *all_told, "it is read");
    close(pipe_ends[0]);
    check(waitpid(child, &status, 0) == child && WIFEXITED(status)
          && (WEXITSTATUS(status) == 0 || WEXITSTATUS(status) == POWER_FAILED), "the process went well");
    power_begin(0, 0);
    find_outbox();
    find_store();
    find_carrier();
    return WEXITSTATUS(status) == 0;
}

int main(int count, char **words)
{
    uint64_t step, seed;
    int is_at_end = 0;
    umask(077); /* as the programs: databases are their owner's alone */
    check(count == 2, "power_test FOLDER");
    snprintf(outbox_path, sizeof outbox_path, "%s/power_outbox.db", words[1]);
    snprintf(store_path, sizeof store_path, "sqlite:%s/power_store.db", words[1]);
    snprintf(carrier_path, sizeof carrier_path, "sqlite:%s/power_carrier.db", words[1]);
    for (step = 1; !is_at_end && step < MOST; step++)
        for (seed = 0; seed < SEEDS; seed++) {
            remove_all(words[1]);
            is_at_end = try_step(step, seed * step);
        }
    check(is_at_end && last_told(TOOK) == TEXTS, "it comes to its end");
    check(step > 5 * TEXTS, "the power failed at many steps");
    return check_status("power_test");
}
