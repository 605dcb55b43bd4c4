/* What is done about answers that no caller looks at: a statement isn't run with a value that it
 * wasn't given, and what can't be ends the program. Rows that are inserted together are all there. */
#include "check.h"
#include "database.h"
#include "locks.h"
#include "text.h"

#include <string.h>
#include <sys/wait.h>
#include <unistd.h>

static sqlite3_int64 count_of(sqlite3 *db, const char *sql)
{
    struct statement count;
    sqlite3_int64 rows;
    check(prepare(db, &count, sql) == ANSWER_DONE, "a question is prepared");
    check(step_row(&count) == ANSWER_FOUND, "it has a row");
    rows = sqlite3_column_int64(count.at, 0);
    end_rows(&count);
    finalize(&count, 1);
    return rows;
}

static void test_values(void)
{
    static const char *const sql[] = { "INSERT INTO it VALUES (?, ?, ?)" };
    sqlite3 *db = open_database(":memory:", "CREATE TABLE it (number INTEGER, text TEXT,"
                                            " bytes BLOB)");
    struct statement insert[1];
    check(db != NULL && prepare_all(db, insert, sql, 1) == ANSWER_DONE, "a statement is prepared");
    bind_number(insert, 4, 7);
    check(step_once(insert) == ANSWER_FAULT, "a place that it doesn't have: it isn't run");
    check(count_of(db, "SELECT count(*) FROM it") == 0, "and has no effect");
    bind_number(insert, 1, 7);
    bind_letters(insert, 2, "ab", 1);
    bind_bytes(insert, 3, NULL, 0);
    check(step_once(insert) == ANSWER_DONE, "the next time it is");
    check(count_of(db, "SELECT count(*) FROM it WHERE number = 7 AND text = 'a'"
                       " AND typeof(bytes) = 'blob' AND length(bytes) = 0") == 1, "with its values");
    check(step_row(insert) == ANSWER_DONE, "a row that is open");
    bind_text(insert, 4, "none");
    check(step_row(insert) == ANSWER_FAULT, "a text without a place");
    end_rows(insert);
    check(step_once(insert) == ANSWER_DONE, "after the end of its rows it is run again");
    finalize(insert, 1);
    close_database(db);
}

static int add(struct rows *rows, const char *name, int number, const void *bytes, size_t len)
{
    int at = next_row(rows);
    bind_name(rows, at + 1, name);
    bind_number(&rows->all, at + 2, number);
    bind_copy(rows, at + 3, bytes, len);
    return add_row(rows);
}

static void test_rows(void)
{
    static const char large[ROW_BYTES], all[] = "SELECT count(*) FROM it";
    sqlite3 *db = open_database(":memory:", "CREATE TABLE it (name TEXT, number INTEGER, bytes BLOB)");
    struct rows rows;
    int i;
    check(db != NULL
          && prepare_rows(db, &rows, "INSERT INTO it VALUES ($1, $2, $3)") == ANSWER_DONE, "rows are prepared");
    for (i = 0; i <= ROWS; i++) {
        char name[] = "row", byte = (char)(' ' + i);
        check(add(&rows, name, i, &byte, 1) == 0, "a row is added");
        memset(name, 0, sizeof name); /* it was copied, and so is the byte */
    }
    check(count_of(db, all) == ROWS, "so many are inserted together");
    check(insert_rows(&rows) == ANSWER_DONE && count_of(db, all) == ROWS + 1, "and the rest at the end");
    check(count_of(db, "SELECT count(*) FROM it WHERE rowid = number + 1 AND name = 'row'"
                       " AND bytes = CAST(char(32 + number) AS BLOB)") == ROWS + 1, "each with its values, in their order");
    check(add(&rows, "row", 99, large, sizeof large) == 0 && count_of(db, all) == ROWS + 2, "long ones sooner");
    check(add(&rows, "row", 100, large, 1) == 0, "one that is forgotten");
    forget_rows(&rows);
    check(insert_rows(&rows) == ANSWER_DONE && count_of(db, all) == ROWS + 2, "isn't there");
    check(add(&rows, NULL, 101, large, 1) == 0
          && insert_rows(&rows) == ANSWER_FAULT, "one without its name is a fault");
    check(add(&rows, "row", 102, large, 1) == 0 && insert_rows(&rows) == ANSWER_DONE
          && count_of(db, all) == ROWS + 3, "once");
    finalize(&rows.all, 1);
    close_database(db);
}

/* The status with which a process ends that does this. */
static int status_of(void (*what)(void))
{
    pid_t child = fork();
    int status = -1;
    check(child >= 0, "fork");
    if (child == 0) {
        what();
        _exit(0);
    }
    check(waitpid(child, &status, 0) == child, "waitpid");
    return WIFEXITED(status) ? WEXITSTATUS(status) : -1;
}

static void write_too_much(void)
{
    char text[4];
    write_whole(text, sizeof text, "%d", 1234);
}

static void write_enough(void)
{
    char text[4];
    write_whole(text, sizeof text, "%d", 123);
    check(strcmp(text, "123") == 0, "all of it");
    write_cut(text, sizeof text, "%d", 12345);
    check(strcmp(text, "123") == 0, "what has room");
}

static void lock_twice(void)
{
    pthread_mutexattr_t kind;
    pthread_mutex_t lock;
    check(pthread_mutexattr_init(&kind) == 0
          && pthread_mutexattr_settype(&kind, PTHREAD_MUTEX_ERRORCHECK) == 0
          && pthread_mutex_init(&lock, &kind) == 0, "a lock");
    take_lock(&lock);
    give_lock(&lock);
    take_lock(&lock);
    take_lock(&lock);
}

int main(int count, char **words)
{
    check_only(2, count, words);
    RUN(test_values());
    RUN(test_rows());
    check(status_of(write_enough) == 0, "a text that has room");
    check(status_of(write_too_much) == 1, "a name that is cut ends the program");
    check(status_of(lock_twice) == 1, "so does a lock that can't be taken");
    return check_status("answers_test");
}
