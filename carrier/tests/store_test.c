/* Tests a store by what store.h says of it:  store_test WHERE It needs a store without shard 900
 * and session 'tom-7'. */
#include "check.h"
#include "effect.h"

#include <pthread.h>
#include <string.h>
#include <sys/stat.h>
#include <time.h>
#include <unistd.h>

enum { SHARD = 900, LIST = 77, FIRST = 7, PAUSE = 200000, LOST = 20 };

static const char name[] = "tom-7";
static struct store *late;
static enum answer late_answer;

static enum answer effect(struct store *s, uint64_t number, const char *text, size_t len)
{
    const struct arrived it = { name, "", "", number, 0, (const uint8_t *)text, len };
    return take_effect(s, &it);
}

static const struct reached nothing = { 0, 0 };

static struct reached at(uint64_t offset)
{
    return (struct reached){ LIST, offset };
}

/* Of a session that demands this number: bytes that differ by the number. */
static struct history history_of(uint64_t number)
{
    struct history it = { .is_known = 1 };
    memset(it.bytes, (int)(0xf0 + number), sizeof it.bytes);
    return it;
}

/* A session that demands this number, with its place. */
static struct demand demands(uint64_t number, uint64_t place)
{
    return (struct demand){ number, 0, MISSED_NOTHING, place, SHARD, number != FIRST,
                            history_of(number) };
}

/* One whole transaction with one text. */
static enum answer step(struct store *s, struct reached from, uint64_t to, uint64_t number)
{
    const struct demand before = demands(number, from.offset);
    const struct demand after = demands(number + 1, to);
    const struct reached end = at(to);
    if (store_begin(s, SHARD, &from, &end) != ANSWER_DONE || effect(s, number, "hello", 5) != ANSWER_DONE
        || store_advance(s, name, &before, &after) != ANSWER_DONE)
        return ANSWER_FAULT;
    return s->commit(s);
}

static enum answer note(void *given, const char *session, const struct demand *demand)
{
    check(strcmp(session, name) == 0, "its name");
    *(struct demand *)given = *demand;
    return ANSWER_DONE;
}

/* What is stored of the session, of which it is one of two that are asked for. */
static enum answer read_session(struct store *s, struct demand *demand)
{
    const char *const names[] = { "nobody", name };
    demand->is_stored = 0;
    return store_sessions(s, names, 2, note, demand);
}

static void stands(struct store *s, uint64_t offset, uint64_t number, uint32_t closed,
                   const char *what)
{
    struct demand demand = { .next = FIRST };
    struct reached reached;
    check(store_reached(s, SHARD, &reached) == ANSWER_DONE && read_session(s, &demand) == ANSWER_DONE, "read");
    check(reached.offset == offset && reached.list == (offset > 0 ? LIST : 0), what);
    check(demand.next == number && demand.closed == closed, what);
    check(demand.is_stored == (number != FIRST), "whether it is stored");
    check(!demand.is_stored || (demand.at == offset && demand.shard == SHARD), "its place");
    check(!demand.is_stored || memcmp(&demand.history.bytes, history_of(number).bytes,
                                      sizeof demand.history.bytes) == 0, "its history");
}

/* The same step as another store has under way, begun while it is. */
static void *step_late(void *given)
{
    (void)given;
    late_answer = step(late, at(12), 15, 9);
    return NULL;
}

static void test_fences(struct store *one, struct store *other)
{
    stands(one, 0, FIRST, 0, "at first");
    check(step(one, at(3), 5, 7) == ANSWER_ELSEWHERE, "a step of a shard that isn't there is fenced");
    check(step(one, nothing, 5, 8) == ANSWER_ELSEWHERE, "a step of a session that isn't there is fenced");
    stands(one, 0, FIRST, 0, "nothing of them is stored");
    check(step(one, nothing, 5, 7) == ANSWER_DONE, "a step");
    stands(other, 5, 8, 0, "it is stored");
    check(step(other, nothing, 5, 7) == ANSWER_ELSEWHERE, "the same step again is fenced");
    check(step(other, at(0), 6, 8) == ANSWER_ELSEWHERE, "a step from another offset is fenced");
    check(step(other, (struct reached){ LIST + 1, 5 }, 6, 8) == ANSWER_ELSEWHERE, "and from another list");
    check(step(other, at(5), 6, 7) == ANSWER_ELSEWHERE, "and of a session that is there as if it weren't");
    check(step(other, at(5), 6, 9) == ANSWER_ELSEWHERE, "and from a number that isn't reached");
    stands(one, 5, 8, 0, "nothing of them is stored");
    check(step(other, at(5), 12, 8) == ANSWER_DONE, "another goes on");
    stands(one, 12, 9, 0, "it is stored");
}

/* All that is stored of a session is compared. */
static void test_compared(struct store *one)
{
    const struct reached from = at(12), to = at(13);
    int i;
    for (i = 0; i < 4; i++) {
        struct demand before = demands(9, 12), after = demands(10, 13);
        before.closed = i == 0;
        before.missed = i == 1 ? MISSED_EARLY : MISSED_NOTHING;
        before.at += i == 2;
        before.shard += i == 3;
        check(store_begin(one, SHARD, &from, &to) == ANSWER_DONE, "begin");
        check(store_advance(one, name, &before, &after) == ANSWER_DONE, "advance");
        check(one->commit(one) == ANSWER_ELSEWHERE, "a session that is otherwise is fenced");
    }
    stands(one, 12, 9, 0, "nothing of them is stored");
}

/* A shard that moves to another list: places are at its beginning, and nothing is missed. */
static void test_other_list(struct store *one, struct store *other)
{
    const struct reached from = at(12), to = { LIST + 1, 3 };
    const struct demand fine = demands(9, 12), after = { 9, 0, MISSED_UNSETTLED, 12, SHARD, 1,
                                                       history_of(9) };
    struct demand found = { 0 }, reset = after;
    struct reached reached;
    reset.at = reset.missed = 0;
    check(store_begin(one, SHARD, &from, &from) == ANSWER_DONE && store_advance(one, name, &fine, &after) == ANSWER_DONE
              && one->commit(one) == ANSWER_DONE, "it misses something");
    check(store_begin(one, SHARD, &from, &to) == ANSWER_DONE && one->commit(one) == ANSWER_DONE, "another list");
    check(store_reached(other, SHARD, &reached) == ANSWER_DONE && read_session(other, &found) == ANSWER_DONE, "read");
    check(reached.list == LIST + 1 && reached.offset == 3, "it is stored");
    check(found.at == 0 && found.missed == MISSED_NOTHING && found.next == 9, "its place");
    check(store_begin(one, SHARD, &to, &from) == ANSWER_DONE && store_advance(one, name, &reset, &fine) == ANSWER_DONE
              && one->commit(one) == ANSWER_DONE, "back again");
}

static void test_rollback(struct store *one, struct store *other)
{
    const struct reached from = at(12), to = at(20);
    check(store_begin(one, SHARD, &from, &to) == ANSWER_DONE && effect(one, 9, "lost", 4) == ANSWER_DONE, "begin");
    one->rollback(one);
    stands(other, 12, 9, 0, "what is given up isn't stored");
}

/* Two steps from one place at once. */
static uint64_t test_two(struct store *one, struct store *other)
{
    const struct demand before = demands(9, 12), after = demands(10, 14);
    const struct reached from = at(12), to = at(14);
    pthread_t thread;
    enum answer answer;
    late = other;
    check(store_begin(one, SHARD, &from, &to) == ANSWER_DONE, "begin");
    check(effect(one, 9, "", 0) == ANSWER_DONE, "effect of no bytes");
    check(store_advance(one, name, &before, &after) == ANSWER_DONE, "advance");
    check(pthread_create(&thread, NULL, step_late, NULL) == 0, "thread");
    usleep(PAUSE);
    answer = one->commit(one);
    pthread_join(thread, NULL);
    check((answer == ANSWER_DONE && late_answer == ANSWER_ELSEWHERE)
              || (answer == ANSWER_ELSEWHERE && late_answer == ANSWER_DONE), "of two at once one is fenced");
    stands(one, answer == ANSWER_DONE ? 14 : 15, 10, 0, "the other is stored");
    return answer == ANSWER_DONE ? 14 : 15;
}

/* A receiver whose machine is gone in a transaction: it answers nothing any more, and its
 * connection stays. Another one goes on after some seconds. */
static void test_lost(const char *where)
{
    static char large[1 << 20]; /* more than is kept before it is sent */
    const struct reached to = at(5);
    struct store *lost = store_open(where, SHARD + 1), *other = store_open(where, SHARD + 1);
    time_t began = time(NULL);
    enum answer answer = ANSWER_FAULT;
    int tries;
    check(lost != NULL && other != NULL, "open");
    check(store_begin(lost, SHARD + 1, &nothing, &to) == ANSWER_DONE, "begin");
    check(effect(lost, 1, large, sizeof large) == ANSWER_DONE, "effect");
    usleep(5 * PAUSE);
    for (tries = 0; answer != ANSWER_DONE && time(NULL) - began < LOST; tries++) {
        answer = store_begin(other, SHARD + 1, &nothing, &to);
        if (answer == ANSWER_DONE)
            answer = other->commit(other);
        if (answer == ANSWER_DONE)
            break;
        other->close(other); /* as shard.c does */
        other = store_open(where, SHARD + 1);
        check(other != NULL, "open again");
    }
    check(tries > 0, "the one that is lost has locks");
    check(answer == ANSWER_DONE, "they are let go");
    other->close(other);
    lost->close(lost);
}

int main(int count, char **words)
{
    const struct demand end = { 11, 1, MISSED_NOTHING, 16, SHARD, 1, history_of(11) };
    struct reached from, to = at(16);
    struct demand before;
    struct store *one, *other;
    umask(077); /* as the programs: databases are their owner's alone */
    check(count == 2, "usage: store_test WHERE");
    one = store_open(words[1], SHARD);
    other = store_open(words[1], SHARD);
    check(one != NULL && other != NULL, "open");
    test_fences(one, other);
    test_compared(one);
    test_other_list(one, other);
    test_rollback(one, other);
    from = at(test_two(one, other));
    before = demands(10, from.offset);
    check(store_begin(one, SHARD, &from, &to) == ANSWER_DONE, "begin");
    check(store_advance(one, name, &before, &end) == ANSWER_DONE, "the close");
    check(one->commit(one) == ANSWER_DONE, "commit");
    stands(other, 16, 11, 1, "closed");
    one->close(one);
    other->close(other);
    if (strncmp(words[1], "postgresql", 10) == 0) /* over SQLite a process alone may be lost */
        test_lost(words[1]);
    return check_status("store_test");
}
