/* Tests where programs wait, by what waiting.h says of it:  waiting_test FOLDER */
#include "check.h"
#include "clock.h"
#include "signals.h"
#include "waiting.h"

#include <fcntl.h>
#include <pthread.h>
#include <signal.h>
#include <sys/stat.h>
#include <unistd.h>

enum { LONG = 60000, SHORT = 30, SECOND = 1000 }; /* milliseconds */
enum { LOOKS = 40 };                              /* after something came, at most */

static char database[4096], beside[4096], link_of_it[4096];

static void write_to(const char *path)
{
    int file = open(path, O_WRONLY | O_CREAT | O_APPEND, 0600);
    check(file >= 0 && write(file, "x", 1) == 1 && close(file) == 0, "a file is written");
}

/* Waits for a long time, which is cut short: what it answers. */
static int is_cut_short(struct waiting *it)
{
    uint64_t end = milliseconds() + LONG;
    int answer = waiting_until(it, end);
    check(milliseconds() < end, "a wait is cut short");
    return answer;
}

/* Waits for a while, which isn't cut short. */
static void lasts(struct waiting *it, unsigned time)
{
    uint64_t end = milliseconds() + time;
    check(waiting_until(it, end) == 0 && milliseconds() >= end, "a wait lasts until its moment");
}

static void test_time(void)
{
    struct waiting it;
    waiting_begin(&it, 0);
    lasts(&it, SHORT);
    check(waiting_until(&it, 0) == 0, "a moment that has passed isn't waited for");
    waiting_end(&it);
}

static void *wake(void *given)
{
    pause_milliseconds(SHORT);
    waiting_wake(given);
    return NULL;
}

/* Whoever is woken looks again soon, and ever more rarely, for a second. */
static void test_wakes(void)
{
    struct waiting it;
    pthread_t thread;
    uint64_t began;
    unsigned looks = 0;
    waiting_begin(&it, 0);
    waiting_wake(&it);
    check(is_cut_short(&it) == 0, "a wake before the wait ends it");
    for (began = milliseconds(); milliseconds() - began < SECOND; looks++)
        (void)is_cut_short(&it); /* nothing was written */
    check(looks > 1 && looks < LOOKS, "it looks some times more");
    lasts(&it, SHORT);
    check(pthread_create(&thread, NULL, wake, &it) == 0, "a thread is started");
    check(is_cut_short(&it) == 0 && pthread_join(thread, NULL) == 0, "another thread wakes it");
    waiting_end(&it);
}

/* A descriptor wakes as long as it is ready, and leads to no further look. */
static void test_descriptor(void)
{
    struct waiting it;
    uint64_t end = milliseconds() + LONG;
    int ends[2];
    waiting_begin(&it, 1);
    check(pipe(ends) == 0 && write(ends[1], "x", 1) == 1, "a pipe that is ready");
    lasts(&it, SHORT);
    waiting_hear(&it, ends[0]);
    check(is_cut_short(&it) == 0 && is_cut_short(&it) == 0, "it ends each wait");
    lasts(&it, BRIEF);
    waiting_for(ends[0], end);
    check(milliseconds() < end, "and one within a call");
    waiting_hear(&it, -1);
    lasts(&it, SHORT);
    check(close(ends[0]) == 0 && close(ends[1]) == 0, "the pipe is closed");
    waiting_end(&it);
}

/* One that passes on what comes is woken once for it. */
static void test_file(const char *path)
{
    struct waiting it;
    waiting_begin(&it, 1);
    waiting_watch(&it, path);
    lasts(&it, SHORT);
    write_to(beside);
    check(is_cut_short(&it) == 1, "a write beside the database ends the wait");
    write_to(beside);
    check(is_cut_short(&it) == 1, "so does one that follows it at once");
    pause_milliseconds(BRIEF);
    lasts(&it, SHORT);
    write_to(database);
    lasts(&it, SHORT);
    check(rename(database, beside) == 0 && is_cut_short(&it) == 1, "another file in its place does");
    write_to(database);
    pause_milliseconds(BRIEF);
    (void)waiting_until(&it, milliseconds() + SECOND + SHORT); /* by then it is watched */
    write_to(beside);
    check(is_cut_short(&it) == 1, "what is written to that one does");
    waiting_end(&it);
}

/* What isn't told is seen within a second. */
static void test_untold(void)
{
    struct waiting it;
    const struct timespec times[2] = { { 1, 0 }, { 1, 0 } };
    waiting_begin(&it, 1);
    waiting_watch(&it, database);
    check(utimensat(AT_FDCWD, beside, times, 0) == 0, "its time is set");
    check(waiting_until(&it, milliseconds() + LONG) == 1 && milliseconds() - it.looked < SECOND,
          "a change is found");
    waiting_end(&it);
}

static void test_unwatched(void)
{
    struct waiting it;
    waiting_begin(&it, 0);
    waiting_watch(&it, "/nowhere/database");
    check(is_cut_short(&it) == 1 && is_cut_short(&it) == 1,
          "what can't be watched is looked at all the time");
    waiting_end(&it);
}

/* The end wakes once, so that what has to be done then can be waited for. */
static void test_end(void)
{
    struct waiting it;
    waiting_begin(&it, 0);
    end_by_signals();
    check(raise(SIGTERM) == 0 && is_cut_short(&it) == 0 && is_ending(),
          "the end cuts a wait short");
    lasts(&it, SHORT);
    waiting_end(&it);
}

int main(int count, char **words)
{
    check(count == 2, "waiting_test FOLDER");
    snprintf(database, sizeof database, "%s/database", words[1]);
    snprintf(beside, sizeof beside, "%s/database-wal", words[1]);
    snprintf(link_of_it, sizeof link_of_it, "%s/link", words[1]);
    write_to(database);
    write_to(beside);
    check(symlink("database", link_of_it) == 0, "a link leads to it");
    test_time();
    test_wakes();
    test_descriptor();
    test_file(database);
    test_file(link_of_it);
    test_untold();
    test_unwatched();
    test_end();
    return check_status("waiting_test");
}
