#include "shard_threads.h"
#include "clock.h"
#include "signals.h"
#include "locks.h"
#include "log.h"
#include "service.h"

#include <pthread.h>
#include <stdlib.h>

#define MILLISECOND UINT64_C(1000000) /* nanoseconds */
#define SECOND (1000 * MILLISECOND)
#define UNANSWERED (10 * SECOND)

/* What the thread and its owner both use is read and written atomically. */
struct thread {
    pthread_t thread;
    struct served served;
    struct waiting waiting;
    enum shard_state state;  /* of the owner alone, as is: */
    uint64_t store[2];       /* which file the store is, as it was looked last */
    int has_closed;
    int has_begun, has_ended, is_closed;
};

static struct {
    const struct shard_options *options;
    struct thread *threads;  /* one for each shard */
    unsigned count, shards[CARRIER_SHARDS]; /* so many of them run, of these shards */
    struct waiting *owner;
    int come_and_go, failed;
    pthread_mutex_t lock;    /* of the sessions */
    struct sessions *sessions;
} serving = { .lock = PTHREAD_MUTEX_INITIALIZER };

static void set(int *flag)
{
    __atomic_store_n(flag, 1, __ATOMIC_SEQ_CST);
}

static int is_set(const int *flag)
{
    return __atomic_load_n(flag, __ATOMIC_SEQ_CST);
}

/* ---- One shard */

/* Has a shard use the file's sessions, unless it does. */
static void use_sessions(struct shard *shard)
{
    take_lock(&serving.lock);
    if (shard->sessions != serving.sessions)
        shard_use(shard, serving.sessions);
    give_lock(&serving.lock);
}

static int has_to_end(const struct served *it)
{
    return is_ending() || is_set(&it->is_left);
}

static void fail(void)
{
    set(&serving.failed);
    end_now();
}

/* Each second: shows what was counted, and logs it if something was since. */
static void report(struct served *it)
{
    struct shard *shard = &it->shard;
    if (nanoseconds() - it->reported <= SECOND)
        return;
    if (shard->carrier->is_closed(shard->carrier))
        fail();
    shard_show(shard, shard->number);
    if (shard->counts.frames != it->before.frames) {
        shard_report(shard, "shard_progress", nanoseconds() - it->began);
        it->before = shard->counts;
    }
    it->reported = nanoseconds();
    it->is_unshown = 0;
}

/* Whether all sessions of the shard are closed, if that is the end. */
static int is_closed(const struct shard *shard)
{
    return shard->options->until_closed && shard->is_loaded && shard->open == 0;
}

void threads_prepare(struct served *it, unsigned shard)
{
    *it = (struct served){ .shard = { .options = serving.options, .number = shard }, .answered = nanoseconds() };
}

enum answer threads_open(struct served *it)
{
    if (shard_start(&it->shard) != ANSWER_DONE)
        return ANSWER_FAULT;
    shard_show(&it->shard, it->shard.number);
    it->began = it->reported = nanoseconds();
    return ANSWER_DONE;
}

/* One step, of which what it did is noted. What waits for the first frame isn't counted in the seconds. */
static void step(struct served *it, uint64_t *until)
{
    struct shard *shard = &it->shard;
    unsigned long receipts = shard->counts.receipts;
    int count = shard_step(shard, until);
    if (shard->answered_at != 0)
        __atomic_store_n(&it->answered, shard->answered_at, __ATOMIC_SEQ_CST);
    if (shard->counts.accepted == 0 && count == 0)
        it->began = nanoseconds();
    it->is_unshown |= count != 0 || !shard->is_loaded || shard->counts.receipts != receipts;
}

/* What has happened is shown within a second. */
int threads_turn(struct served *it, uint64_t *until)
{
    uint64_t show;
    if (has_to_end(it) || is_closed(&it->shard))
        return 1;
    *until = 0;
    use_sessions(&it->shard);
    step(it, until);
    report(it);
    show = it->is_unshown ? (it->reported + SECOND) / MILLISECOND + 1 : UINT64_MAX;
    if (show < *until)
        *until = show;
    return 0;
}

void threads_finish(struct served *it)
{
    shard_pay_rest(&it->shard);
    shard_report(&it->shard, "shard_ended", nanoseconds() - it->began);
}

/* ---- A thread */

static void *serve_shard(void *given)
{
    struct thread *it = given;
    struct served *served = &it->served;
    uint64_t until = 0;
    if (threads_open(served) == ANSWER_DONE) {
        set(&it->has_begun);
        waiting_wake(serving.owner);
        while (!threads_turn(served, &until)) {
            waiting_hear(&it->waiting, served->shard.hears ? served->shard.carrier->descriptor : -1);
            (void)waiting_until(&it->waiting, until); /* whatever came, a turn looks for it */
        }
        threads_finish(served);
        if (is_closed(&served->shard))
            set(&it->is_closed);
    } else if (!is_ending() && !serving.come_and_go) {
        fail();
    }
    shard_stop(&served->shard);
    service_leave(served->shard.number);
    set(&it->has_ended);
    waiting_wake(serving.owner);
    return NULL;
}

/* ---- All of them */

enum answer threads_begin(const struct shard_options *options, struct sessions *sessions, int come_and_go,
                          struct waiting *owner)
{
    serving.options = options;
    serving.owner = owner;
    serving.come_and_go = come_and_go;
    serving.sessions = sessions_share(sessions);
    serving.threads = calloc(CARRIER_SHARDS, sizeof *serving.threads);
    if (serving.threads != NULL && service_begin("receiver", shard_metrics, shard_metrics_count,
                                                 &shard_stands_metric, CARRIER_SHARDS + 1) == 0)
        return ANSWER_DONE;
    log_system("out_of_memory", "receiver");
    return ANSWER_FAULT;
}

void threads_use(struct sessions *sessions)
{
    take_lock(&serving.lock);
    sessions_forget(serving.sessions);
    serving.sessions = sessions_share(sessions);
    give_lock(&serving.lock);
}

void threads_wake(void)
{
    unsigned i;
    for (i = 0; i < serving.count; i++)
        waiting_wake(&serving.threads[serving.shards[i]].waiting);
}

void threads_look_at_stores(void)
{
    unsigned i;
    for (i = 0; i < serving.count; i++) {
        struct thread *it = &serving.threads[serving.shards[i]];
        uint64_t device = 0, inode = 0;
        if (store_file(serving.options->store, serving.shards[i], &device, &inode) != 0
            || (it->store[0] == device && it->store[1] == inode))
            continue;
        it->store[0] = device;
        it->store[1] = inode;
        waiting_wake(&it->waiting);
    }
}

int threads_start(unsigned shard)
{
    struct thread *it = &serving.threads[shard];
    *it = (struct thread){ .state = SHARD_SERVED };
    threads_prepare(&it->served, shard);
    waiting_begin(&it->waiting, 0);
    service_expect(shard);
    if (pthread_create(&it->thread, NULL, serve_shard, it) == 0) {
        serving.shards[serving.count++] = shard;
        return 1;
    }
    log_system("thread_unstarted", "receiver");
    service_leave(shard);
    waiting_end(&it->waiting);
    it->state = SHARD_IDLE;
    set(&serving.failed);
    return 0;
}

void threads_leave(unsigned shard)
{
    serving.threads[shard].state = SHARD_LEFT;
    set(&serving.threads[shard].served.is_left);
    waiting_wake(&serving.threads[shard].waiting);
}

unsigned threads_join(void)
{
    unsigned i, before = serving.count, count = 0;
    for (i = 0; i < before; i++) {
        struct thread *it = &serving.threads[serving.shards[i]];
        if (!is_set(&it->has_ended)) {
            serving.shards[count++] = serving.shards[i];
            continue;
        }
        if (pthread_join(it->thread, NULL) != 0)
            log_system("thread_unjoined", "receiver");
        waiting_end(&it->waiting);
        it->state = SHARD_IDLE;
        it->has_closed = is_set(&it->is_closed);
    }
    serving.count = count;
    return before - count;
}

enum shard_state threads_state(unsigned shard)
{
    return serving.threads[shard].state;
}

unsigned threads_count(void)
{
    return serving.count;
}

int threads_is_unanswered(void)
{
    uint64_t now = nanoseconds();
    unsigned shard, served = 0;
    for (shard = 0; shard < CARRIER_SHARDS; shard++) {
        const struct thread *it = &serving.threads[shard];
        if (it->state == SHARD_SERVED && now - __atomic_load_n(&it->served.answered, __ATOMIC_SEQ_CST) < UNANSWERED)
            return 0;
        served += it->state == SHARD_SERVED;
    }
    return served > 0;
}

int threads_is_ready(void)
{
    unsigned shard;
    for (shard = 0; shard < CARRIER_SHARDS; shard++)
        if (serving.threads[shard].state == SHARD_SERVED
            && !is_set(&serving.threads[shard].has_begun))
            return 0;
    return 1;
}

int threads_failed(void)
{
    return is_set(&serving.failed);
}

int threads_has_closed(unsigned shard)
{
    return serving.threads[shard].has_closed;
}

void threads_end(void)
{
    sessions_forget(serving.sessions);
    free(serving.threads);
}
