/* Which store it is, and what each of them keeps of a shard and its sessions. */
#include "store.h"
#include "carrier.h"
#include "log.h"
#include "option_words.h"

#include <stdio.h>
#include <stdlib.h>
#include <string.h>

const char kept_tables[] =
    "CREATE TABLE IF NOT EXISTS opened (name text PRIMARY KEY, shard bigint NOT NULL,"
    " client text NOT NULL, stream text NOT NULL, before text NOT NULL, etype bigint NOT NULL,"
    " ends bigint NOT NULL, kvno bigint NOT NULL, wrapping bigint NOT NULL, key text NOT NULL,"
    " UNIQUE (client, stream, before));";

static int is_sqlite(const char *where)
{
    return strncmp(where, "sqlite:", 7) == 0;
}

static int is_postgresql(const char *where)
{
    return strncmp(where, "postgresql:", 11) == 0;
}

#ifdef WITH_POSTGRESQL
enum { HAS_POSTGRESQL = 1 };
#else
enum { HAS_POSTGRESQL = 0 };

struct store *postgresql_store_open(const char *where)
{
    (void)where;
    return NULL; /* never: store_check_option has ended the program */
}
#endif

void store_check_option(const char *program, const char *where)
{
    if (!is_sqlite(where) && !is_postgresql(where)) /* what follows the first ':' may be a password */
        end_with(2, "%s: --store '%.*s': this is no store: name sqlite:FILE or postgresql://USER@HOST/DATABASE\n",
                 program, (int)strcspn(where, ":"), where);
    if (is_postgresql(where) && !HAS_POSTGRESQL)
        end_with(2, "%s: --store: this program was built without PostgreSQL: install libpq-dev, and run make\n",
                 program);
}

struct store *store_open(const char *where, unsigned shard)
{
    return is_sqlite(where) ? sqlite_store_open(where + 7, shard) : postgresql_store_open(where);
}

int store_file(const char *where, unsigned shard, uint64_t *device, uint64_t *inode)
{
    return is_sqlite(where) ? sqlite_store_file(where + 7, shard, device, inode) : -1;
}

/* ---- What is stored of a shard and its sessions */

static uint64_t number_of(const char *column)
{
    return strtoull(column, NULL, 10);
}

static enum answer read_reached(void *given, const char *const *row)
{
    *(struct reached *)given = (struct reached){ number_of(row[0]), number_of(row[1]) };
    return ANSWER_DONE;
}

enum answer store_reached(struct store *store, unsigned shard, struct reached *reached)
{
    const struct value value = number_value(shard);
    *reached = (struct reached){ 0, 0 };
    return store->ask(store, store->sql[SELECT_REACHED], &value, 1, read_reached, reached);
}

struct taking { store_take *take; void *given; };

static enum answer read_session(void *given, const char *const *row)
{
    const struct taking *to = given;
    struct demand demand = { .next = number_of(row[0]), .closed = (uint32_t)number_of(row[1]),
                             .missed = (uint32_t)number_of(row[2]), .at = number_of(row[3]),
                             .shard = (int32_t)strtol(row[4], NULL, 10), .is_stored = 1 };
    history_read(&demand.history, row[6]);
    return to->take(to->given, row[5], &demand);
}

/* The names as PostgreSQL writes an array of texts; the caller frees it. */
static char *array_of(const char *const *names, size_t count)
{
    char *array = malloc(count * (CARRIER_NAME + 3) + 3);
    size_t i, size = 0;
    for (i = 0; i < count && array != NULL; i++)
        size += (size_t)sprintf(array + size, "%c\"%s\"", i == 0 ? '{' : ',', names[i]);
    if (array != NULL)
        strcpy(array + size, "}");
    return array;
}

enum answer store_sessions(struct store *store, const char *const *names, size_t count, store_take *take,
                           void *given)
{
    struct taking to = { take, given };
    char *array = array_of(names, count);
    struct value value;
    enum answer answer = ANSWER_FAULT;
    if (array != NULL && count > 0) {
        value = text_value(array);
        answer = store->ask(store, store->sql[SELECT_SESSIONS], &value, 1, read_session, &to);
    }
    free(array);
    return count > 0 ? answer : ANSWER_DONE;
}

/* ---- A transaction */

/* Whether it moves a shard from one list to another. */
static int is_other(const struct reached *from, const struct reached *to)
{
    return from->list != 0 && from->list != to->list;
}

enum answer store_move(struct store *store, unsigned shard, const struct reached *from, const struct reached *to)
{
    const struct value values[] = { number_value(shard), number_value(from->list), number_value(from->offset),
                                    number_value(to->list), number_value(to->offset) };
    return store->run(store, store->sql[MOVE_SHARD], values, 5, ONE_ROW);
}

enum answer store_begin(struct store *store, unsigned shard, const struct reached *from,
                        const struct reached *to)
{
    const struct value value = number_value(shard);
    if (store->begin(store) != ANSWER_DONE || store_move(store, shard, from, to) != ANSWER_DONE)
        return ANSWER_FAULT;
    return is_other(from, to) ? store->run(store, store->sql[RESET_SESSIONS], &value, 1, ANY_ROWS) : ANSWER_DONE;
}

enum { ROW = 5 }; /* values of a session's row, but for its name and its history */

static void write_row(struct value values[ROW], const struct demand *it)
{
    values[0] = number_value(it->next);
    values[1] = number_value(it->closed);
    values[2] = number_value(it->missed);
    values[3] = number_value(it->at);
    values[4] = number_value((uint64_t)(int64_t)it->shard);
}

enum answer store_advance(struct store *store, const char *session, const struct demand *from,
                          const struct demand *to)
{
    struct value values[2 * ROW + 2] = { text_value(session) };
    char history[HISTORY_TEXT];
    unsigned count = 1 + ROW;
    write_row(values + 1, to);
    if (from->is_stored) {
        write_row(values + count, from);
        count += ROW;
    }
    history_write(&to->history, history);
    values[count++] = text_value(history);
    return store->run(store, store->sql[from->is_stored ? MOVE_SESSION : ADD_SESSION], values, count, ONE_ROW);
}

/* ---- Statements */

unsigned store_place(const struct store *store, const char *sql)
{
    unsigned i = 0;
    while (i < STORE_STATEMENTS && store->given[i] != NULL && store->given[i] != sql)
        i++;
    if (i == STORE_STATEMENTS)
        log_fact(LEVEL_ERROR, "effects_too_many", field_number("most", STORE_STATEMENTS));
    return i;
}

enum answer store_run(struct store *store, const char *sql, const struct value *values, unsigned count)
{
    return store->run(store, sql, values, count, ANY_ROWS);
}

enum answer store_add(struct store *store, const char *sql, const struct value *values, unsigned count)
{
    return store->add(store, sql, values, count);
}
