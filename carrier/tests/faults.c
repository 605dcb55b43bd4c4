/* A carrier for tests, over the one of SQLite, whose nodes fail: it loses frames that it was
 * given, stores others twice, and loses confirmations. The linker puts it in the place of
 * sqlite_carrier_open (--wrap).
 *
 * CARRIER_FAULTS is one number: so many of 1,000 frames are lost, as many stored twice, and so
 * many confirmations lost. CLOCK_OFFSET are seconds by which the clock is ahead. The TAKEN_AHEAD'th frame that
 * a receiver takes meets a clock that is twelve days ahead. So many of the first calls of
 * krbrelay_opener_open as OPENS_WITHOUT_MEMORY says have no memory: those of messages that are refused. */
#include "carrier.h"
#include "clock.h"
#include "wrapped.h"

#include <stdio.h>
#include <stdlib.h>
#include <time.h>
#include <unistd.h>

static struct carrier real; /* the calls of SQLite's carrier */
static long faults;         /* of 1,000 */
static unsigned lost;       /* so many of the next frames are lost too */

WRAPPED(sqlite_carrier_open);
WRAPPED(read_clock);
WRAPPED(krbrelay_opener_open);
WRAPPED(krbrelay_receiver_take_many);

struct krbrelay_moment __wrap_read_clock(void)
{
    struct krbrelay_moment now = __real_read_clock();
    const char *ahead = getenv("CLOCK_OFFSET");
    now.seconds += ahead != NULL ? (uint64_t)atoll(ahead) : 0;
    return now;
}

enum krbrelay_answer __wrap_krbrelay_opener_open(struct krbrelay_opener *handle, const uint8_t *frame,
                                                 size_t len, const struct krbrelay_demand *demand,
                                                 const struct krbrelay_moment *at, uint8_t *user_data,
                                                 size_t room, size_t *size,
                                                 struct krbrelay_carried *carried)
{
    static int had;
    const char *without = getenv("OPENS_WITHOUT_MEMORY");
    if (without != NULL && __sync_fetch_and_add(&had, 1) < atoi(without))
        return KRBRELAY_MEMORY;
    return __real_krbrelay_opener_open(handle, frame, len, demand, at, user_data, room, size, carried);
}

/* One frame at a time where one of them meets another clock. */
enum krbrelay_answer __wrap_krbrelay_receiver_take_many(struct krbrelay_receiver *handle,
                                                        const struct krbrelay_frame *frames, size_t count,
                                                        const struct krbrelay_moment *at, uint8_t *bytes,
                                                        size_t room, struct krbrelay_taken *taken)
{
    static int had;
    const char *ahead = getenv("TAKEN_AHEAD");
    enum krbrelay_answer answer = KRBRELAY_OK;
    size_t i, used = 0;
    if (ahead == NULL)
        return __real_krbrelay_receiver_take_many(handle, frames, count, at, bytes, room, taken);
    for (i = 0; i < count && answer == KRBRELAY_OK; i++) {
        struct krbrelay_moment now = *at;
        if (__sync_add_and_fetch(&had, 1) == atoi(ahead))
            now.seconds += 1000000;
        answer = __real_krbrelay_receiver_take_many(handle, &frames[i], 1, &now, bytes + used, room - used, &taken[i]);
        used += taken[i].answer == KRBRELAY_OK ? taken[i].size : 0;
    }
    return answer;
}

static int happens(void)
{
    return rand() % 1000 < faults;
}

static enum answer publish(struct carrier *c, unsigned shard, const char *session, uint32_t tag,
                           uint64_t number, const uint8_t *frame, size_t len)
{
    if (lost == 0 && happens())
        lost = 1 + (unsigned)rand() % 3;
    if (lost > 0) {
        lost--;
        return ANSWER_DONE;
    }
    if (happens()) /* the first copy is confirmed to nobody */
        real.publish(c, shard, session, UINT32_MAX, number, frame, len);
    return real.publish(c, shard, session, tag, number, frame, len);
}

static enum answer confirmed(struct carrier *c, struct confirmed *list, size_t room, size_t *count)
{
    size_t i, came = 0;
    enum answer answer = real.confirmed(c, list, room, &came);
    *count = 0;
    for (i = 0; i < came; i++)
        if (!happens())
            list[(*count)++] = list[i];
    return answer;
}

/* A receipt may be lost as a frame. */
static enum answer acknowledge(struct carrier *c, unsigned shard, const struct carried *list, size_t count)
{
    size_t i;
    for (i = 0; i < count; i++)
        if (!happens() && real.acknowledge(c, shard, list + i, 1) != ANSWER_DONE)
            return ANSWER_FAULT;
    return ANSWER_DONE;
}

struct carrier *__wrap_sqlite_carrier_open(const char *path)
{
    struct carrier *c = __real_sqlite_carrier_open(path);
    const char *given = getenv("CARRIER_FAULTS");
    if (c == NULL || given == NULL)
        return c;
    real = *c;
    c->publish = publish;
    c->confirmed = confirmed;
    c->acknowledge = acknowledge;
    faults = atol(given);
    srand((unsigned)(getpid() + time(NULL)));
    return c;
}
