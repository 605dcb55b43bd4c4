/* Tests a carrier by what carrier.h says of it:  carrier_test WHERE [REPLICAS]
 * It needs shards 900 and 901 that are empty. */
#include "carrier.h"
#include "check.h"
#include "clock.h"
#include "waiting.h"
#include "wrapped.h"

#include <string.h>
#include <sys/stat.h>
#ifdef WITH_NATS
#include <nats/nats.h>
#endif

enum { FRAMES = 500, PATIENCE = 100, SHARD = 900, LONG = 3 << 19 };

static int is_out_of_memory; /* no block grows */

WRAPPED(realloc);
void *__wrap_realloc(void *at, size_t size)
{
    return is_out_of_memory ? NULL : __real_realloc(at, size);
}

#ifdef WITH_NATS
WRAPPED(natsSubscription_NextMsg);
natsStatus __wrap_natsSubscription_NextMsg(natsMsg **message, natsSubscription *from, int64_t wait)
{
    return is_out_of_memory ? NATS_NO_MEMORY : __real_natsSubscription_NextMsg(message, from, wait);
}
#endif

static uint64_t offsets[FRAMES]; /* of each frame */

static size_t len_of(unsigned i)
{
    return i * 37 % 1500;
}

static const char *session_of(unsigned i)
{
    return i % 3 ? "tom-7" : "ann_1";
}

static void fill(uint8_t *frame, unsigned shard, unsigned i)
{
    size_t at;
    for (at = 0; at < len_of(i); at++)
        frame[at] = (uint8_t)(shard + i * 7 + at);
}

/* Waits, where something may come later. */
static void await(const struct carrier *c, unsigned time)
{
    waiting_for(c->descriptor, milliseconds() + time);
}

static int confirmed_in(struct carrier *c, struct confirmed *list, size_t room)
{
    size_t count = 0;
    await(c, 100);
    return c->confirmed(c, list, room, &count) == ANSWER_DONE ? (int)count : -1;
}

/* What it fetches within some seconds. */
static int fetched_in(struct carrier *c, struct carried *list, size_t room)
{
    enum answer answer = ANSWER_DONE;
    size_t had = 0;
    int tries;
    for (tries = 0; had == 0 && answer == ANSWER_DONE && tries < PATIENCE; tries++) {
        answer = c->fetch(c, list, room, &had);
        if (had == 0)
            await(c, 100);
    }
    return answer == ANSWER_DONE ? (int)had : -1;
}

/* Answers come with confirmations. */
static void await_shard(struct carrier *c, unsigned shard)
{
    static struct confirmed list[1];
    uint64_t made = 0;
    int tries;
    for (tries = 0; tries < PATIENCE && c->make(c, shard, &made) != ANSWER_DONE; tries++)
        check(confirmed_in(c, list, 1) == 0, "nothing is confirmed that wasn't published");
    check(made > 0, "a shard is made");
}

static void turns_all(struct carrier *c)
{
    uint8_t frame[1500];
    unsigned i;
    for (i = 0; i < FRAMES; i++) {
        unsigned shard = SHARD + i % 2;
        fill(frame, shard, i);
        check(c->publish(c, shard, session_of(i), i, 10 * i, frame, len_of(i)) == ANSWER_DONE,
              "publish");
    }
}

static void note_confirmed(const struct confirmed *list, int count)
{
    int i;
    for (i = 0; i < count; i++) {
        check(list[i].tag < FRAMES && list[i].number == 10 * (uint64_t)list[i].tag, "its tag");
        check(list[i].offset > 0 && offsets[list[i].tag] == 0, "once");
        offsets[list[i].tag] = list[i].offset;
    }
}

static void await_confirmed(struct carrier *c)
{
    static struct confirmed list[FRAMES];
    int had = 0, tries;
    for (tries = 0; had < FRAMES && tries < PATIENCE; tries++) {
        int now = confirmed_in(c, list, FRAMES);
        if (now > 0) {
            note_confirmed(list, now);
            had += now;
        }
    }
    check(had == FRAMES, "each frame is confirmed");
}

static void check_fetched(const struct carried *it, unsigned shard, unsigned i)
{
    uint8_t frame[1500];
    fill(frame, shard, i);
    check(it->offset == offsets[i], "nothing is left out");
    check(strcmp(it->session, session_of(i)) == 0, "session");
    check(it->len == len_of(i) && memcmp(it->frame, frame, len_of(i)) == 0, "frame");
}

/* Reads a shard from frame i on, after this offset, to its end. */
static void read_from(struct carrier *reader, unsigned i, uint64_t offset)
{
    static struct carried list[64];
    unsigned shard = SHARD + i % 2;
    size_t left = 1;
    int at, had, tries;
    reader->seek(reader, shard, offset);
    for (tries = 0; i < FRAMES && tries < PATIENCE; tries++) {
        had = fetched_in(reader, list, 64);
        for (at = 0; at < had; at++, i += 2)
            check_fetched(&list[at], shard, i);
    }
    check(i >= FRAMES, "all are fetched");
    check(reader->fetch(reader, list, 64, &left) == ANSWER_DONE && left == 0, "and no more");
}

/* Each reader of a shard gets the same list, and nothing stands after the end. */
static void check_shards(struct carrier *c, struct carrier *reader)
{
    uint64_t made = 0, asked = 0, behind = 1, end = 0;
    check(c->make(c, SHARD, &made) == ANSWER_DONE && made > 0, "it is made");
    check(reader->find_list(reader, SHARD, &asked, &end) == ANSWER_DONE && asked == made, "its incarnation");
    check(end == offsets[FRAMES - 2], "its last offset");
    read_from(reader, 2, offsets[0]);
    check(reader->behind(reader, &behind) == ANSWER_DONE && behind == 0, "nothing stands after the end");
}

/* Without memory for a frame, a fetch fails: it doesn't answer that nothing came. */
static void check_out_of_memory(struct carrier *c, struct carrier *reader)
{
    static const uint8_t frame[LONG];
    struct confirmed of[1];
    struct carried list[1];
    size_t count = 0;
    reader->seek(reader, SHARD, 0);
    check(fetched_in(reader, list, 1) == 1, "a frame, of a reader that has begun");
    if (reader->file != NULL) {
        check(c->publish(c, SHARD, "tom-7", 1, 1, frame, LONG) == ANSWER_DONE
              && c->confirmed(c, of, 1, &count) == ANSWER_DONE
              && count == 1, "a long frame");
        reader->seek(reader, SHARD, of[0].offset - 1);
    }
    is_out_of_memory = 1;
    check(reader->fetch(reader, list, 1, &count) == ANSWER_FAULT, "it has no memory");
    is_out_of_memory = 0;
    check(fetched_in(reader, list, 1) == 1, "and the next one has it");
    check(reader->file == NULL || list[0].len == LONG, "the long frame");
}

int main(int count, char **words)
{
    struct carrier_options options = { .replicas = count > 2 ? (unsigned)atoi(words[2]) : 1 };
    struct carrier *c, *reader;
    unsigned i;
    umask(077); /* as the programs: databases are their owner's alone */
    check_only(3, count, words);
    check(count >= 2, "usage: carrier_test WHERE [REPLICAS [TEST..]]");
    options.where = words[1];
    c = carrier_open(&options);
    reader = carrier_open(&options);
    check(c != NULL && reader != NULL, "open");
    await_shard(c, SHARD);
    await_shard(c, SHARD + 1);
    turns_all(c);
    await_confirmed(c);
    for (i = 2; i < FRAMES; i++)
        check(offsets[i] > offsets[i - 2], "offsets rise");
    RUN(read_from(reader, 0, 0));
    RUN(read_from(reader, 1, 0));
    for (i = 101; i + 2 < FRAMES; i += 101)
        RUN(read_from(reader, i + 2, offsets[i]));
    RUN(check_shards(c, reader));
    RUN(check_out_of_memory(c, reader));
    c->close(c);
    reader->close(reader);
    return check_status("carrier_test");
}
